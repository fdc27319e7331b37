"""What `--help` prints, for the command and for each of its commands."""

from texts import WORDS

ALL = """\
usage: ./regdulyn [--unproved] COMMAND FILE
       ./regdulyn [--unproved] missed FILE DRIVE..
       ./regdulyn [--unproved] threshold N T

  table FILE           prints the listing of a survivor table: its sets, its cores and the verdicts on k
  run FILE             prints the listing of an exchange tried out: a table with a run file behind it
  explain FILE         says a table or a fault list in words: each set, group and core by drive numbers, and what is
                       left out
  missed FILE DRIVE..  says which survivor set is the first that has none of these drives
  picture FILE         draws a table, or an exchange tried out, as SVG
  make FILE.txt        writes the bytes of a table, of a table and a run file, or of a fault list, from text
  show FILE            prints the text from which make makes the file
  convert FILE         writes the bytes of a fault list's table, or of a table's fault list
  threshold N T        writes the bytes of the table of N drives of which at most T drop out
  library              builds the proved library for C and prints where it stands

FILE - is standard input. ./regdulyn COMMAND --help says more of a command.

--unproved answers at once from the second program, which is not proved; it goes with table, run, explain, missed,
picture, convert and threshold. Without it the first use builds the proved program, which takes minutes; the prover's
text goes to target/build.log.

exit status: 0 done; 1 the file is refused, or the drives or N and T are, or the text has mistakes; 2 a wrong use, or a
file that cannot be read or written; 3 the proved program cannot be built or run, or its listing is not of the file; 128
and a signal's number where that signal ended it
"""

TABLE = """\
usage: ./regdulyn [--unproved] table FILE

Prints what the proved table program prints: the number of drives, the survivor sets of the normal table, the cores, the
chosen core and the verdicts on k 2, 3 and 4, `few` for a frame of no more than k drives. A refused file prints
`refused N`; standard error has the meaning of N, and the exit status is 1.
"""

RUN = """\
usage: ./regdulyn [--unproved] run FILE

Prints what the proved run program prints for a table with a run file behind it: what each drive decides and in which
round, the chosen core and how many of its drives stop. A refused file prints `refused N`; standard error has the
meaning of N, and the exit status is 1.
"""

EXPLAIN = """\
usage: ./regdulyn [--unproved] explain FILE

Says a table in words, to be read against the wiring: each survivor set and each core by drive numbers, whether the sets
are all groups of one size, the sets that the normal table drops and why, the drives that are in no set, which drives
talk and which listen; and of a run file the pattern numbers and stops. Sets kept, cores and the chosen core are the
proved table program's.

Of a fault list it first says the largest fault groups, those that are dropped and why, and the drives that are in no
group; then the sets and cores of the table that the proved convert program makes of it.

Of a refused file it says the sets or groups as they are listed; standard error has what is wrong, and the exit status
is 1.
"""

MISSED = """\
usage: ./regdulyn [--unproved] missed FILE DRIVE..

Says which survivor set of a table is the first that has none of these drives: its position, as the table program lists
the sets, its mask and its drives. Where the drives are in every set it says so, and a core that they hold. The sets,
their order and the cores are the proved table program's. Of a refused file standard error has the refusal with its
meaning, and the exit status is 1; so it has 4 where one of the drives is not of the frame.
"""

PICTURE = """\
usage: ./regdulyn [--unproved] picture FILE > FILE.svg

Draws a table as drives by survivor sets and cores, or, where a run file stands behind the table, the exchange as drives
by rounds. What is drawn as a set, core, verdict, decision or stop is what the proved program lists. A refused file
gives no picture; standard error has the meaning of its refusal, and the exit status is 1.
"""

MAKE = """\
usage: ./regdulyn make FILE.txt > FILE

Writes the bytes of a table, of a table and a run file, or of a fault list, from lines of a word and numbers:

""" + WORDS + """

Each pattern number of a drive that talks is written in a PW, of four bytes, and one of a listener is left out: nobody
uses it. A file that is meant to be refused has those of listeners too. PR, of two bytes, is still read.

Each mistake is one line FILE:LINE: MESSAGE on standard error; then nothing is written and the exit status is 1. What
the library would refuse is a mistake too, unless a line `refused N` names that very refusal.
"""

SHOW = """\
usage: ./regdulyn show FILE > FILE.txt

Prints the text of the file: `refused N` where the library refuses it, `drives`, the sets or fault groups as masks in
the file's order, `patterns` with every number that stands there, - for a drive without one, and the stops; numbers
without leading zeros, masks in lower case, no comments. From the text make makes the very bytes, but for two things
that give the same listing: a PW in place of each PR and, where the file is not refused, no pattern numbers of
listeners. A text is canonical if show prints it for what make makes from it: so is every text that show prints of a
file that is refused, or in which no listener has a number.

Of a refused file standard error has what is wrong, each with the byte, from 0, at which its record starts, or what
stands in the place of a missing one, and the exit status is 1. Bytes that are no row of records are not shown: standard
error has the first byte that does not fit.
"""

CONVERT = """\
usage: ./regdulyn [--unproved] convert FILE > OTHER

Turns a fault list into the table that says the same, and a table into its fault list. A fault list has the groups of
drives that can fail together, and each survivor set is the rest of the frame. What is written is in normal form: of a
table the sets that hold no other, of a fault list the groups within no other, by mask; so converting there and back
gives the normal form of the file. The bytes are the proved convert program's.

Of a refused file nothing is written; standard error has the refusal with its meaning, and the exit status is 1. A run
file behind a table is refused with 7, and so is all that stands behind a fault list.
"""

THRESHOLD = """\
usage: ./regdulyn [--unproved] threshold N T > FILE

Writes the bytes of a table for a frame of which only this is known: it has N drives, and at most T of them drop out.
The survivor sets are all groups of N - T drives, and so the cores are all groups of T + 1. The bytes are the proved
threshold program's. Where N and T are refused nothing is written; standard error has the refusal with its meaning, and
the exit status is 1: 3 where N is not 1 to 64, then 31 where T is not below N, then 32 where there are more than 128
groups of N - T drives, then 13 where there are more than 1024 cores.
"""

LIBRARY = """\
usage: ./regdulyn library

Proves and builds the library for C and C++, target/libregdulyn.a, which include/regdulyn.h declares, and prints its
path. It is linked like any archive:

  cc -std=c11 -Iinclude examples/controller.c target/libregdulyn.a -o controller

docs/CONTROLLER.md says what it costs and what is proved of it.
"""
