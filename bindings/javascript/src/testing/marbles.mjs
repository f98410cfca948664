// Marble diagrams: a character a frame, and in a run times such as 10ms besides.
import { COMPLETE_NOTIFICATION, errorNotification, nextNotification } from '../core/notification.mjs';

export class SubscriptionLog {
  constructor(subscribedFrame, unsubscribedFrame = Infinity) {
    this.subscribedFrame = subscribedFrame;
    this.unsubscribedFrame = unsubscribedFrame;
  }
}

const TIME = /^([0-9]+(?:\.[0-9]+)?)(ms|s|m)(?: |$)/;
const UNITS = { ms: 1, s: 1000, m: 60000 };

/** The pieces of a diagram: a character each, or so many frames. */
function* pieces(marbles, runMode, factor) {
  const characters = [...marbles];
  for (let i = 0; i < characters.length; i++) {
    const is_start = i === 0 || characters[i - 1] === ' ';
    const time = runMode && is_start && /^[0-9]$/.test(characters[i]) && TIME.exec(characters.slice(i).join(''));
    if (time) {
      i += time[1].length + time[2].length - 1;
      yield { frames: (parseFloat(time[1]) * UNITS[time[2]]) / factor };
    } else yield { it: characters[i] };
  }
}

export function subscriptionsOf(marbles, runMode, factor) {
  if (typeof marbles !== 'string') return new SubscriptionLog(Infinity);
  let group = -1, subscribed = Infinity, unsubscribed = Infinity, frame = 0;
  const now = () => (group > -1 ? group : frame);
  for (const { it, frames } of pieces(marbles, runMode, factor)) {
    let by = frames ?? 1;
    if (it === ' ') by = runMode ? 0 : 1;
    else if (it === '(') group = frame;
    else if (it === ')') group = -1;
    else if (it === '^') {
      if (subscribed !== Infinity) throw new Error(`found a second subscription point '^' in a subscription marble diagram. There can only be one.`);
      subscribed = now();
    } else if (it === '!') {
      if (unsubscribed !== Infinity) throw new Error(`found a second unsubscription point '!' in a subscription marble diagram. There can only be one.`);
      unsubscribed = now();
    } else if (it !== undefined && it !== '-') {
      throw new Error(`there can only be '^' and '!' markers in a subscription marble diagram. Found instead '${it}'.`);
    }
    frame += by * factor;
  }
  return unsubscribed < 0 ? new SubscriptionLog(subscribed) : new SubscriptionLog(subscribed, unsubscribed);
}

export function messagesOf(marbles, values, errorValue, valueOf, runMode, factor) {
  if (marbles.includes('!')) throw new Error('conventional marble diagrams cannot have the unsubscription marker "!"');
  const messages = [], begin = (runMode ? marbles.replace(/^ +/, '') : marbles).indexOf('^');
  let frame = begin === -1 ? 0 : begin * -factor, group = -1;
  const value = typeof values === 'object' && values !== null ? (it) => valueOf(values[it]) : (it) => it;
  const push = (notification) => messages.push({ frame: group > -1 ? group : frame, notification });
  for (const { it, frames } of pieces(marbles, runMode, factor)) {
    let by = frames ?? 1;
    if (it === ' ') by = runMode ? 0 : 1;
    else if (it === '(') group = frame;
    else if (it === ')') group = -1;
    else if (it === '|') push(COMPLETE_NOTIFICATION);
    else if (it === '#') push(errorNotification(errorValue || 'error'));
    else if (it !== undefined && it !== '-' && it !== '^') push(nextNotification(value(it)));
    frame += by * factor;
  }
  return messages;
}
