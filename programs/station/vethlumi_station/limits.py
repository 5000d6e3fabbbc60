"""How long a station waits, and how much it takes."""

# In seconds: for a request, for one with a list, for a signature by an agent or a token, for the lists' guard, and for
# ssh-keygen to read a list by the clock.
LONGEST_REQUEST, LONGEST_PUBLISHING, LONGEST_SIGNING, LONGEST_STATING, LONGEST_READING = 20, 60, 30, 120, 60
# In seconds of a processor: for ssh-keygen to read a list. sshd takes as long at each login.
MOST_READING = 5
# In seconds: for one of several addresses to take a connection, so that the time of a request suffices for another one.
LONGEST_CONNECTING = 5
# To how many addresses of a name a list is sent.
MOST_FRONTS = 8
# For the guard, which reads its whole file before its first answer, and for its end.
LONGEST_JUDGING, LONGEST_ENDING = 600, 60
# How many bodies the guard gets at once, how many may wait for it, and by how many connections bodies are fetched, and
# signatures delivered.
MOST_JUDGED, MOST_FETCHED, CONNECTIONS = 64, 128, 4
# In seconds: how often it looks for pending certificates for a while after one has come, and how long that is. So that
# long lists don't keep the office busy, it waits for a multiple of the time that the answer took if that was long, and
# at most so many seconds.
OFTEN, FOR_A_WHILE, LONG_ANSWER, TIMES_AS_LONG, LONGEST_INTERVAL = 0.02, 60, 0.1, 3, 1
# In seconds: how often it looks after its guard and its lists while fronts say when to look for certificates.
AWHILE = 0.1
# Servers take no list of a higher version.
LAST_VERSION = (1 << 63) - 1
LONGEST_PAUSE, PAUSE_OF_LISTS = 60, 10
# For how long at most a round tries again what wasn't signed before, in seconds: new certificates wait for it.
LONGEST_AGAIN = 1
# In seconds: how often evidence is asked for that hasn't come, a little more often than rounds begin, and for how long
# that is no refusal.
PAUSE_OF_EVIDENCE, LONGEST_AWAITED = 0.9, 60
# In bytes: for the pending certificates, for a body (the guard refuses one that is too long), for a reply or a refusal,
# for the list of what is revoked (the front and the servers take none that is longer), for the evidence of a login.
LONGEST_PENDING, LONGEST_BODY, LONGEST_REPLY, LONGEST_LIST = 1 << 26, 1 << 16, 1 << 12, 1 << 25
LONGEST_EVIDENCE = 1 << 14
# How many bytes of a body and of a policy the guard reads.
LONGEST_JUDGED, LONGEST_POLICY = 1 << 14, 1 << 20
# With which status sshstation ends for a fault, which it names.
OF_A_FAULT = 1
# How many bytes of an answer are read at once. Chunks of a byte each take many times their length of memory.
PIECE = 1 << 16
# In bytes: for ssh-keygen. The longest list takes 300 MB, and one may be made so that 2 MB would take more than that.
MOST_MEMORY = 400 << 20
# How many bytes of bodies are kept from one round to the next.
MOST_KEPT = 1 << 24
# How many letters of a list of serials are shown, how many of the reasons that an office can make up, and how many
# seconds a round may last before it shows them: with a request that takes its whole time, less than half a minute.
LONGEST_SERIALS, MOST_REASONS, LONGEST_SILENCE = 1000, 20, 5
# How many times as long as showing them took a round then says nothing. Of many rows it would do little else.
TIMES_AS_SILENT = 10
# How many bytes are said at once of what a front can make up and have change at will, and how many a second in the long
# run: 5.5 MB a day, so that the journal keeps what was said before.
SAID_AT_ONCE, SAID_A_SECOND = 1 << 16, 64
# Of how many serials the station remembers that it has said `signed`, and of how many that a signature isn't taken.
MOST_REMEMBERED = 1 << 18
