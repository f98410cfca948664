/** Has a scheduler do it later, while the subscription is open; again and again if told so. */
export function scheduleFor(subscription, scheduler, work, delay = 0, repeats = false) {
  const action = scheduler.schedule(function again() {
    work();
    if (repeats) subscription.add(this.schedule(null, delay));
    else this.unsubscribe();
  }, delay);
  subscription.add(action);
  return repeats ? undefined : action;
}
