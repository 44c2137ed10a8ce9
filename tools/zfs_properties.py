"""Which settings of OpenZFS zcpd can have: docs/reference/properties.md has the table."""
import re

FILE_SYSTEMS, HEADS = ("filesystem",), ("filesystem", "volume")
SWITCH = ("on", "off")
# The kinds of datasets and the values of each property.
TAKEN = {
    "readonly": (HEADS, SWITCH),
    "atime": (FILE_SYSTEMS, SWITCH),
    "exec": (FILE_SYSTEMS, SWITCH),
    "setuid": (FILE_SYSTEMS, SWITCH),
    "devices": (FILE_SYSTEMS, SWITCH),
    "snapdir": (FILE_SYSTEMS, ("hidden", "visible")),
    "sync": (HEADS, ("standard", "always", "disabled")),
    "primarycache": (HEADS, ("all", "none", "metadata")),
    "copies": (HEADS, ("1", "2", "3")),
    "recordsize": (FILE_SYSTEMS, tuple(str(1 << it) for it in range(9, 21))),
    "canmount": (FILE_SYSTEMS, ("on", "off", "noauto")),
}
# Properties that zcpd hasn't, by what they are for: zfsprops(7).
SPACE = ("quota", "refquota", "reservation", "refreservation", "filesystem_limit", "snapshot_limit", "dedup", "volblocksize",
         "special_small_blocks")
SPACE_OF_USERS = ("userquota@", "groupquota@", "projectquota@", "userobjquota@", "groupobjquota@", "projectobjquota@")
KEYS = ("encryption", "keyformat", "keylocation", "pbkdf2iters", "encryptionroot", "keystatus")
MOUNTPOINTS = ("mountpoint", "sharenfs", "sharesmb", "overlay")
USER_NAME = re.compile(r"(?!-)[a-z0-9:._-]*:[a-z0-9:._-]*")
LONGEST_USER_NAME = 256
LONGEST_USER_VALUE = 1024
MOST_VOLSIZE = 9223372036854775296


def why_not_a_user_property(name, value):
    if len(name) > LONGEST_USER_NAME or not USER_NAME.fullmatch(name):
        return "user properties whose name zcpd doesn't take"
    try:
        length = len(value.encode("utf-8"))
    except UnicodeEncodeError:
        return "user properties whose value is no UTF-8"
    return "user properties whose value has more than 1,024 bytes" if length > LONGEST_USER_VALUE else None


def why_not_a_setting(kind, name, value):
    """Why zcpd can't have this setting on a dataset of this kind, or None where it can."""
    if ":" in name:
        return why_not_a_user_property(name, value)
    if name in TAKEN:
        kinds, values = TAKEN[name]
        if kind not in kinds:
            return "properties that zcpd hasn't on such a dataset"
        return None if value in values else "values that zcpd doesn't take"
    if name == "volsize":
        return "properties that zcpd hasn't on such a dataset"
    if name in SPACE or name.startswith(SPACE_OF_USERS):
        return "space"
    if name in KEYS:
        return "keys"
    if name in MOUNTPOINTS:
        return "mountpoints and shares"
    return "what a receive left" if name == "receive_resume_token" else "other properties, which zcpd hasn't"


def is_volsize(value):
    return value.isascii() and value.isdigit() and int(value) % 512 == 0 and 0 < int(value) <= MOST_VOLSIZE
