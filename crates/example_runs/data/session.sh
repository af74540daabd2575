# The examples, one after another: `sh session.sh` in this folder, with `gravitar` on the path.
set -eu

# The smallest program.
gravitar asm latch/latch.s latch/latch.v latch.img
gravitar run latch.img latch/latch.tape
gravitar debug latch.img latch/latch.tape latch/latch.script
gravitar run latch.img latch/latch.tape > latch.log
cmp latch.log latch/latch.log

# A picture at a steady rate.
gravitar asm square/square.s square/square.v square.img > square.listing
gravitar run square.img square/square.tape > square.log
cmp square.log square/square.log
gravitar debug square.img square/square.tape square/square.script
gravitar frames square.img square/square.tape > square.frames
cmp square.frames square/square.frames
gravitar seek square.img square/square.tape 33000,8424,18470 > square.boards
cmp square.boards square/square.boards

# A tune for two voices.
gravitar asm tune/tune.s tune/tune.v tune.img > tune.listing
gravitar run tune.img tune/tune.tape > tune.log
cmp tune.log tune/tune.log
gravitar pcm tune.img tune/tune.tape 34 > tune.pcm
gravitar profile tune.img tune/tune.tape

# A number in the EAROM, across two runs.
gravitar asm score/score.s score/score.v score.img > score.listing
cp score/blank.cells cells
gravitar run score.img score/first.tape --earom cells > first.log
cmp first.log score/first.log
gravitar run score.img score/second.tape --earom cells > second.log
cmp second.log score/second.log
gravitar debug score.img score/first.tape score/score.script

# The first of these runs in two parts, through a saved board, and cut where it stands inside an instruction.
gravitar run score.img score/first.tape --until 10500 --save score.board
gravitar show score.board
gravitar run score.img score/first.tape --state score.board
gravitar run score.img score/first.tape --cuts 3000,10500 > cut.log
cmp cut.log score/first.log

# A ship that flies, up to clock 100,000. Its tape is made of ship/ship.keys by recipes/keys.awk.
cp ship/ship.tape ship.tape
gravitar asm ship/ship.s ship/ship.v ship.img > ship.listing
gravitar run ship.img ship.tape --until 100000 > ship.log
gravitar frames ship.img ship.tape --until 100000 > ship.frames
gravitar profile ship.img ship.tape --until 100000 > ship.profile
