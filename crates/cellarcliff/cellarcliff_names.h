/* Names of statuses, for what a program prints: those that reports and pages have (docs/reference/refusals.md). Nothing of this is in a
 * library. */
#ifndef CELLARCLIFF_NAMES_H
#define CELLARCLIFF_NAMES_H

/* The name of a status; "a status of a newer version" for a number that this header does not know. */
static inline const char *cellar_status_name(unsigned status) {
  switch (status) {
    case 0: return "Done";
    case 1: return "NothingKept";
    case 2: return "NothingWaits";
    case 3: return "Held";
    case 4: return "NoMemory";
    case 5: return "NoSuchCode";
    case 6: return "Untaken";
    case 7: return "Small";
    case 8: return "Cut";
    case 9: return "Misuse";
    case 16: return "Full";
    case 17: return "Gone";
    case 18: return "WrongKind";
    case 19: return "PlaceTaken";
    case 20: return "NothingOwed";
    case 21: return "NotRoot";
    case 22: return "NoHub";
    case 23: return "HubOrder";
    case 24: return "Connected";
    case 25: return "NotConnected";
    case 27: return "NotHeld";
    case 28: return "HasChild";
    case 29: return "TooMany";
    case 30: return "NoLease";
    case 31: return "Leased";
    default: return "a status of a newer version";
  }
}

#endif
