//! What `--help` prints.

pub const USAGE: &str = "\
usage: tpasm image SOURCE [-o FILE] [--deny-warnings]
       tpasm job SOURCE [-o FILE] [--deny-warnings] [--places N] [--interval N]
                 [--set REGISTER=INTEGER].. [--words FILE]
       tpasm list FILE [-o FILE] [--offsets]
       tpasm names SOURCE [-o FILE]
       tpasm trace|picture|profile FILE [OPTIONS], see 'tpasm trace --help'

image  assembles SOURCE and writes its image
job    assembles SOURCE and writes a job for the run program
list   writes the source of an image or of a job
names  writes the registers that SOURCE names, a line 'rN NAME' for each
trace, picture, profile
       run a text, an image or a job on the engine, and show what it does

--deny-warnings  writes nothing where there are warnings
--offsets        adds numbers, offsets and bytes to the listing, as comments
-o FILE          writes to FILE

A job's options replace the settings that stand in SOURCE. The FILE of --words
has 64-bit words, little-endian. The file '-' is standard input or output;
without -o, the result goes to standard output.

Errors and warnings go to standard error.
Status 0: done. 1: the source, the image, the job or a file is at fault, or
there are warnings with --deny-warnings. 2: the command line is at fault.
";
