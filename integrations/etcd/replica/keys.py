"""The keys in etcd."""
# Each version of this key is a batch of the log, and its number is the version.
LOG = b"mls/log"
# The log's random name, the digest of the start file and the program's version: what all machines must agree on.
CONFIG = b"mls/config"
# Who sees a difference between machines puts this, and nobody appends any more.
HALT = b"mls/halt"
# Behind it a machine's name: a random word that each start of it takes anew.
MEMBER = b"mls/member/"
# Behind it a machine's name: `N DIGEST` of the first N entries of its journal, N a multiple of a thousand.
DIGEST = b"mls/digest/"
# All of them.
FIRST, BEYOND = b"mls/", b"mls0"
