#!/bin/bash
# Times sweeps of stores of which a tenth, half and all is kept, sweeps under live layers, sweeps that drop nothing, sweeps with many retained
# operations, and plans that are hard for the walk along what is retained. The last rows are exponential in what they count. What stands before the sweeps is
# subtracted. tools/timing/run.sh says which arguments it takes.
set -eu
exec "$(dirname "$0")/../../tools/timing/run.sh" sweep "$@"
