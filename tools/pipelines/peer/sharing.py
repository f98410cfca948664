"""What is shared, in RxPY as put right: a hub remembers no end, and what has ended is connected for nobody."""
import types

from rx.core import ConnectableObservable, Observable
from rx.disposable import CompositeDisposable, Disposable
from rx.subject import Subject


class Hub(ConnectableObservable):
    """publish(), which remembers no end: who comes behind that waits for the next connection."""

    asker = types.SimpleNamespace(is_stopped=False, is_past=False, outlives=False, has_ended=False, by=None, inner=None, goes_on=None, exchanges=False, is_node=False, is_around=False, is_linked=False, is_composition=False)

    def __init__(self, source):
        super().__init__(source, Subject())
        self.many, self.of = 0, None

    def connect(self, scheduler=None):
        if not self.has_subscription:
            self.has_subscription, self.subscription = True, CompositeDisposable()
            this, subject = self.subscription, self.subject

            def leave():
                if self.subscription is this:
                    self.has_subscription = False

            def end(tell):
                self.subject = Subject()
                leave()
                tell()
            this.add(Disposable(leave))
            this.add(self.source.subscribe_(subject.on_next, lambda error: end(lambda: subject.on_error(error)), lambda: end(subject.on_completed), scheduler))
        return self.subscription


def counted(make):
    """ref_count() of a hub: as its source ends it has no subscribers any more, and who comes next connects it anew."""
    def ref_count():
        count = make()

        def operate(source):
            if not isinstance(source, Hub):
                return count(source)

            def subscribe(observer, scheduler=None):
                mine = source.subject
                source.many = source.many + 1 if source.of is mine else 1
                source.of = mine
                heard = mine.subscribe_(observer.on_next, observer.on_error, observer.on_completed, scheduler)
                if source.many == 1 and source.of is mine:
                    source.connect(scheduler)

                def leave():
                    heard.dispose()
                    if source.of is mine and source.subject is mine:
                        source.many -= 1
                        if not source.many and source.subscription is not None:
                            source.subscription.dispose()
                return Disposable(leave)
            return Observable(subscribe)
        return operate
    return ref_count


def published(make):
    return lambda mapper=None: Hub if mapper is None else make(mapper)


def connected(connect):
    """What has ended is connected for nobody."""
    return lambda self, scheduler=None: Disposable() if getattr(self.subject, "is_stopped", False) else connect(self, scheduler)
