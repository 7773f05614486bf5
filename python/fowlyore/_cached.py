"""Properties that are computed on first use, answers that are kept by what was asked, and what copies have."""

from typing import Any, Callable, Dict, Generic, Optional, TypeVar, Union, overload

Value = TypeVar("Value")
# Of how many characters an answer may be at most that is kept, with what was asked.
LONGEST_KEPT = 1 << 14


def keep(kept: Dict[Any, Any], asked: Any, answer: Any, most: int, size: int) -> None:
    """Keeps an answer under its question, of about `size` characters; drops all kept ones first if there are `most`.

    >>> squares = {}
    >>> for it in range(5):
    ...     keep(squares, it, it * it, 3, 1)
    >>> squares
    {3: 9, 4: 16}
    """
    if size > LONGEST_KEPT:
        return
    if len(kept) >= most:
        kept.clear()
    kept[asked] = answer


def of_its_own(value: object) -> Optional[Dict[str, Any]]:
    """What was set on a value of a class below one of this package, which a copy of it has too; None where nothing was.

    >>> class Circle:
    ...     pass
    >>> circle = Circle()
    >>> of_its_own(circle)
    >>> circle.area = 3.0
    >>> of_its_own(circle)
    {'area': 3.0}
    """
    return getattr(value, "__dict__", None) or None


class cached_property(Generic[Value]):
    """`functools.cached_property` without the lock that it has before Python 3.12: if another thread holds it
    at a fork, the child waits for it forever. Two threads may both compute a value, and all get that of the
    first to store its own.

    >>> class Circle:
    ...     @cached_property
    ...     def area(self) -> float:
    ...         print("computed")
    ...         return 3.0
    >>> circle = Circle()
    >>> circle.area + circle.area
    computed
    6.0
    """

    def __init__(self, func: Callable[[Any], Value]) -> None:
        self.func = func
        self.__doc__ = func.__doc__

    def __set_name__(self, owner: type, name: str) -> None:
        self.name = name

    @overload
    def __get__(self, instance: None, owner: Optional[type] = None) -> "cached_property[Value]": ...

    @overload
    def __get__(self, instance: object, owner: Optional[type] = None) -> Value: ...

    def __get__(self, instance: Any, owner: Optional[type] = None) -> "Union[cached_property[Value], Value]":
        if instance is None:
            return self
        value: Value = vars(instance).setdefault(self.name, self.func(instance))
        return value
