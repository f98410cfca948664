import { provided } from '../schedulers/providers.mjs';

/** What a program may set for all observables. */
export const config = {
  onUnhandledError: null,
  onStoppedNotification: null,
  Promise: undefined,
  useDeprecatedSynchronousErrorHandling: false,
  useDeprecatedNextContext: false,
};

let context = null; // what was thrown within the outermost call, where a program wants errors at once

/** Tells of an error that nobody hears: in a turn of its own, or, where a program still wants that, to whoever subscribed or emitted. */
export function unheard(error) {
  if (!config.useDeprecatedSynchronousErrorHandling) return reportUnhandledError(error);
  if (context && !context.is_thrown) Object.assign(context, { is_thrown: true, error });
}

/** Does it, and throws what was unheard meanwhile where a program wants that. */
export function inContext(act) {
  if (!config.useDeprecatedSynchronousErrorHandling || context) return act();
  const mine = context = { is_thrown: false, error: null };
  try { act(); } finally { context = null; }
  if (mine.is_thrown) throw mine.error;
}

/** Tells of an error that nobody hears, in a turn of its own. */
export function reportUnhandledError(error) {
  provided.setTimeout(() => {
    const { onUnhandledError } = config;
    if (onUnhandledError) onUnhandledError(error);
    else throw error;
  });
}

/** Tells of what came behind the end, where the program wants to know. */
export function stopped(notification, subscriber) {
  const { onStoppedNotification } = config;
  if (onStoppedNotification) provided.setTimeout(() => onStoppedNotification(notification, subscriber));
}
