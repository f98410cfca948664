import { farther } from '../engine/tracing.mjs';
import { EmptyError } from './errors.mjs';
import { SafeSubscriber } from './subscriber.mjs';

export function lastValueFrom(source, config) {
  return new Promise((resolve, reject) => {
    let has = false, value;
    farther(() => source.subscribe({
      next: (it) => {
        value = it;
        has = true;
      },
      error: reject,
      complete: () => {
        if (has) resolve(value);
        else if (config && typeof config === 'object') resolve(config.defaultValue);
        else reject(new EmptyError());
      },
    }));
  });
}

export function firstValueFrom(source, config) {
  return new Promise((resolve, reject) => {
    const subscriber = new SafeSubscriber({
      next: (value) => {
        resolve(value);
        subscriber.unsubscribe();
      },
      error: reject,
      complete: () => {
        if (config && typeof config === 'object') resolve(config.defaultValue);
        else reject(new EmptyError());
      },
    });
    source.subscribe(subscriber);
  });
}
