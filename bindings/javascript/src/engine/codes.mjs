// The numbers of the interface: which it is, what a command is, where a node stands, what it is, what comes of it.
/** As the header's CELLAR_ABI: its upper half is another one where something changed, the lower half grows with what is added. */
export const ABI = 0x30000;
export const OPEN = 0, USING = 1, HOLD = 2, NEXT = 3, COMPLETE = 4, ERROR = 5, FAIL = 6, DECLINE = 7, DISPOSE = 8, CONNECT = 9,
  DISCONNECT = 10, PUT = 11, SHUT = 12, REMOVE = 15;
export const ROOT = 0, SOURCE = 1, INNER = 2, NOTIFIER = 3;
export const LEAF = 0, PASS = 1, FLAT = 2, SWITCH = 3, UNTIL = 4, SHARED = 5, PUBLISHED = 6;
export const WISHES = 1, LANE_OF_NODE = 2, OF_PROJECTIONS = 4, QUEUES = 8;
export const DONE = 0, NO_MEMORY = 4, FULL = 16, GONE = 17, NO_HUB = 22, HUB_ORDER = 23;
