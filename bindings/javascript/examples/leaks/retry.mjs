// A reader that begins anew where it hears nothing. It subscribes again before it let go of what it had: each silence leaves a file open.
import { Observable, Subject, map } from 'rxjs';

const silences = new Subject();
const lines = () => new Observable(() => () => console.log('closed'));

function read() {
  lines().pipe(map(String)).subscribe(console.log);
}

silences.subscribe(read);
read();
silences.next('a minute');
silences.next('another');
silences.complete();
console.log('the reader stops');
