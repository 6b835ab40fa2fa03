//! What `--help` prints.

pub const USAGE: &str = "\
usage: tpasm trace FILE [-o FILE] [--order ORDER] [--budget N] [--from N] [--to N]
                   [--slots] [--summary] [OPTIONS of tpasm job]
       tpasm picture FILE [-o FILE] [--order ORDER] [--lanes N] [--budget N]
                     [OPTIONS of tpasm job]
       tpasm profile FILE [-o FILE] [--order ORDER] [--budget N]
                     [OPTIONS of tpasm job]

FILE is a text, an image or a job. It is run on the engine, pick by pick.

trace    prints a line for each pick: what it changed, and what the job came to
picture  draws the tasks as an SVG: picks downward, slots across
profile  counts the picks by block and by line

--order ORDER  passes (as the run program), first, last, random:SEED, or a file
               of slots
--budget N     at most N picks, 1000000 without it
--from N       the first pick to show
--to N         the last pick to show
--slots        one column a slot
--summary      the end alone
--lanes N      rounds downward, on 1 to 8 lanes
--places N, --interval N, --set REGISTER=INTEGER, --words FILE
               replace the job's settings
-o FILE        writes to FILE

The file '-' is standard input or output; without -o, the result goes to
standard output. Errors and warnings go to standard error.
Status 0: done, however the job ended. 1: the file is at fault, or the job is
refused. 2: the command line is at fault.
";
