// Chat rooms. Whoever leaves a room forgets it, but nobody completes its subject, so that its log stays open.
import { Subject, filter, finalize } from 'rxjs';

class Room {
  constructor(name) {
    this.name = name;
    this.said = new Subject();
    this.said.pipe(filter(Boolean), finalize(() => console.log('closed:', name))).subscribe((line) => console.log(`${name}: ${line}`));
  }
  close() { console.log(this.name, 'is left'); } // and this.said.complete() is missing
}

for (const name of ['kitchen', 'garden']) {
  const room = new Room(name);
  room.said.next('hello');
  room.close();
}
