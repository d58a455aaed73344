"""Names and numbers of a core's events, units and counters."""


UNITS = ["Inode", "Rmap", "Free", "Refc"]
PLANS = ["Check", "Repair", "Rebuild"]
UNIT_OF = {"bno": "Free", "cnt": "Free", "rmap": "Rmap", "refc": "Refc", "ino": "Inode", "fino": "Inode"}
KINDS_OF = {"Inode": ["ino", "fino"], "Rmap": ["rmap"], "Free": ["bno", "cnt"], "Refc": ["refc"]}
COUNTERS_OF = {
    "Inode": ["count", "freecount", "iblocks", "fblocks"],
    "Rmap": ["rmapblocks"],
    "Free": ["freeblks", "longest", "btreeblks"],
    "Refc": ["refcntblocks"],
}
KIND_OF_COUNTER = {
    "Count": "ino",
    "Freecount": "ino",
    "Iblocks": "ino",
    "Fblocks": "fino",
    "RmapBlocks": "rmap",
    "Freeblks": "bno",
    "Longest": "cnt",
    "Btreeblks": "bno",
    "RefcountBlocks": "refc",
}
COUNTER_FIELDS = {
    "Count": "count",
    "Freecount": "freecount",
    "Iblocks": "iblocks",
    "Fblocks": "fblocks",
    "RmapBlocks": "rmapblocks",
    "Freeblks": "freeblks",
    "Longest": "longest",
    "Btreeblks": "btreeblks",
    "RefcountBlocks": "refcntblocks",
}
STEP_OF = {"add": "Rmap", "remove": "Rmap", "change": "Rmap", "more": "Ref", "less": "Ref", "free": "Free"}
PHASES = {
    "advance": "Scanning",
    "scan_piece": "Scanning",
    "close": "Open",
    "gather_piece": "Closed",
    "compare_piece": "Gathered",
    "reserve_piece": "Building",
    "stage_piece": "Reserved",
    "switch": "Staged",
    "reap_piece": "Judged",
}
NO_NOTE = {"code": 0, "refused": None, "done": 0, "begun": None}
# refusals of writers, by the place that a reply names
CODES = ["NoFile", "Occupied", "Hole", "ForkFull", "TreeFork", "NoSpace", "Sick", "CountMax", "TooLarge", "Busy", "Closing"]
CODES += ["Shut", "Memory", "Crowded", "NoChain", "OtherStep", "JournalFull"]
MOST_PIECE, MOST_CHAINS, MOST_MAPPED = 1024, 16, (1 << 21) - 1
# events that write the image without an entry, or did once
WRITES = {"stage_piece", "switch", "reap_piece", "reopen", "give_inode", "convert_first"}
GROUP_EVENTS = {"start", "reopen", "refill", *PHASES}
