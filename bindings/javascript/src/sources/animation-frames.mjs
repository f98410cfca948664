import { Observable } from '../core/observable.mjs';
import { frames, moments } from '../schedulers/providers.mjs';

/** The time of each frame, and how long since it was subscribed to. */
export function animationFrames(timestampProvider) {
  return new Observable((subscriber) => {
    const clock = timestampProvider || moments, start = clock.now();
    let id = 0;
    const goOn = () => {
      if (subscriber.closed) return;
      id = frames.set((timestamp) => {
        id = 0;
        const now = clock.now();
        subscriber.next({ timestamp: timestampProvider ? now : timestamp, elapsed: now - start });
        goOn();
      });
    };
    goOn();
    return () => { if (id) frames.clear(id); };
  });
}
