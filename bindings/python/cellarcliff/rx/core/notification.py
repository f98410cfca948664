"""Notes as objects, where RxPY has them."""
from .._notification import Notification, OnCompleted, OnError, OnNext

__all__ = ["Notification", "OnCompleted", "OnError", "OnNext"]
