"""The keys of a cluster in etcd."""

TOP = "sched-jobs/"
# How many logs the cluster has.
LOGS = TOP + "logs"
NODES = TOP + "nodes/"


def node_key(name: str) -> str:
    """It is there as long as the node's lease."""
    return NODES + name


def log_prefix(log: int) -> str:
    return f"{TOP}{log:04}/"


def leader_key(log: int) -> str:
    """It is there as long as the lease of the node that leads. The revision at which it was made is the leader's own."""
    return log_prefix(log) + "leader"


def groups_prefix(log: int) -> str:
    return log_prefix(log) + "log/"


def group_key(log: int, number: int) -> str:
    return f"{groups_prefix(log)}{number:016}"


def mails_prefix(log: int) -> str:
    return log_prefix(log) + "said/"


def mail_key(log: int, node: str, place: str) -> str:
    """What a node says to who leads. Places of one node ascend."""
    return f"{mails_prefix(log)}{node}/{place}"


def snapshot_key(log: int) -> str:
    return log_prefix(log) + "snapshot"


def parts_prefix(log: int) -> str:
    return log_prefix(log) + "parts/"


def part_key(log: int, group: int, part: int) -> str:
    return f"{parts_prefix(log)}{group:016}/{part:04}"


def number_of(key: str) -> int:
    """The number of a group, by its key."""
    return int(key.rpartition("/")[2])


def mail_of(key: str) -> tuple[str, str]:
    """Whose mail it is, and its place."""
    node, _, place = key.split("/", 3)[3].rpartition("/")
    return node, place
