// A feed that screens share. Each screen that is left should unsubscribe, and the second one does not: the connection stays.
import { Observable, share } from 'rxjs';

const feed = new Observable((observer) => {
  observer.next(1);
  return () => console.log('closed');
}).pipe(share());

class Screen {
  constructor(name) { this.subscription = feed.subscribe((value) => console.log(name, value)); }
  leave() { this.subscription.unsubscribe(); }
}

const first = new Screen('first');
new Screen('second');
first.leave();
console.log('no screen is left');
