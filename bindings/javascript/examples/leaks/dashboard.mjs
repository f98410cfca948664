// A dashboard: each route has a socket, and leaving the page ends what is shown. But `takeUntil` stands inside `switchMap`, so it ends the socket
// of the moment alone: the next route opens another, and nobody closes that.
import { NEVER, Subject, switchMap, takeUntil, using } from 'rxjs';

const routes = new Subject(), left = new Subject();
const connect = (route) => ({ unsubscribe: () => console.log('closed:', route) });
const socketOf = (route) => using(() => connect(route), () => NEVER).pipe(takeUntil(left));

routes.pipe(switchMap(socketOf)).subscribe();
routes.next('prices');
left.next();
routes.next('news');
console.log('the page is left');
