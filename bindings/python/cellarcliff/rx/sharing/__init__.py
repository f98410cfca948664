"""What several observers share: by a hub of the engine, or by a subject."""
from .hubs import ConnectableObservable, Published, RefCount
from .subjects import Counted, Multicast, Selected

__all__ = ["ConnectableObservable", "Counted", "Multicast", "Published", "RefCount", "Selected"]
