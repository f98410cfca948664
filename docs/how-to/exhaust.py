"""An operator of one's own, made of those that are there. Run as: python3 exhaust.py, with the library or the wheel."""
from cellarcliff import rx
from cellarcliff.rx import operators as ops
from cellarcliff.rx.subject import Subject


def exhaust_map(mapper):
    """The items of the observable of an item. What comes while that is open is left out."""
    def over(source):
        def subscribed(_):
            is_open = False

            def free():
                nonlocal is_open
                is_open = False

            def inner(item):
                nonlocal is_open
                if is_open:
                    return rx.empty()
                is_open = True
                return mapper(item).pipe(ops.finally_action(free))

            return source.pipe(ops.flat_map(inner))
        return rx.defer(subscribed)
    return over


def main():
    words, answers = Subject(), {it: Subject() for it in "abc"}
    words.pipe(exhaust_map(answers.get)).subscribe(print, print, lambda: print("the end"))
    words.on_next("a")
    words.on_next("b")
    answers["b"].on_next("of b")
    answers["a"].on_next("of a")
    answers["a"].on_completed()
    words.on_next("c")
    answers["c"].on_next("of c")
    words.on_completed()
    answers["c"].on_completed()


if __name__ == "__main__":
    main()
