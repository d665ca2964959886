//! What --help says.

pub const HELP: &str = "Renders notes and plays pieces with string and modal voices whose every sample is proved.

Usage: bleidhvan render SHEET -o DIR [options]
       bleidhvan play SCORE -o PIECE.wav [options]
       bleidhvan verify DIR [--again] [--jobs N]
       bleidhvan help

SHEET is a CSV file with a header ('-' reads it from standard input), one note a line:
  name        the name of the note and of its file, which no other note has
  kind        string or modal
  note        a name such as A3, a number such as 57, or a frequency such as 220hz
  seconds     how long the note is, or ring: until it has died away by 90 dB, at most 60 seconds
  play        trigger (struck once) or sustain (excited all along)
  accent, structure, brightness, damping
              the knobs, each from 0 to 1

DIR gets one sound file a note; catalogue.csv with a line for every note, what became of it, its
levels, what made it and the SHA-256 of its file; index.html, the catalogue as a page to search and play,
with files beside it whose names begin with index-; and notes.sfz, an instrument for samplers.

SCORE is a CSV file with a header, one event a line, in any order:
  time        seconds from the beginning, up to 86400, or with --tempo a bar and a beat, from 1:1 on
  slot        the voice, 0 to 7; its first event in time opens it
  kind        string or modal; behind a slot's first event it may be empty
  note        as in a sheet
  play        trigger (struck), sustain (excited up to the slot's next event), or empty: the knobs move
              on, and what was struck rings on
  accent, structure, brightness, damping
              the knobs, each from 0 to 1, which stay up to the slot's next event

PIECE.wav, or PIECE.flac, gets all slots together; PIECE.wav.report.csv has a line for every event, with the
words of noise that it drew or why it was refused, and the levels and the SHA-256 of the piece.

Options of both:
  --seed N    the seed of the noise, 0 to 4294967295 (0)
  --rate HZ   the sample rate, 8000 to 192000 (48000)
  --format F  wav or flac (wav)
  --bits N    32 for float samples, 24 or 16 for whole ones (32; 24 for flac); whole samples are
              dithered by a triangle of one step, the same at every run, but for silence
  --aux       the aux output as a second channel
  --gain DB   raises (or lowers) the voice's own level, -100 to 100 (0)
  --normalise peak=DB or loudness=LUFS
              brings each note, or the piece, to a level from -100 to 0, as peak=-1 or loudness=-18
  --fade MS   fades the end, 0 to 10000 (10; of a piece half its tail); 0 leaves the voice's own samples
  -j, --jobs N
              how many notes are rendered at once, 1 to 256, or as many as there is memory for (1);
              a piece is one job, and no byte of it hangs on this
  --force     renders every note anew, and writes over files that no run wrote
  -q, --quiet no progress, no list and no sum

Options of render:
  -o, --output DIR
              the folder to write to; it is made where it is not there
  --first-line N
              where SHEET is a part of a whole sheet, the whole one's line of its line 2 (2)
  --piece NAME
              a piece that lies in DIR, which the page plays on top under its name

Options of play:
  -o, --output PIECE.wav
              the file to write; its ending, .wav or .flac, is the format
  --aux-output AUX.wav
              the aux output as a file of its own, beside the piece
  --title T   the title in the file's tags
  --tempo N   beats a minute, 1 to 1000, where times are bars and beats
  --beats N   beats a bar, 1 to 64 (4)
  --tail S    the seconds behind the last event, 0 to 3600, or ring: until the piece has died away by
              90 dB, at most 60 seconds (4)
  --block N   the most frames that the bank is handed at once, 24 to 4096 (4096); no byte hangs on it,
              since a piece is made of blocks of 24 whatever it is

verify looks that every file of DIR's catalogue is there and is the one that was rendered:
  --again     renders each anew and compares

  -h, --help  this text
  -V, --version
              the version

A value may follow a '=' as well: --seed=33.

Example:
  bleidhvan render notes.csv -o notes --jobs 4

A score of five events, and how it is played:
  time,slot,kind,note,play,accent,structure,brightness,damping
  1:1,0,modal,D2,trigger,0.7,0.27,0.35,0.7
  1:2,1,string,A3,trigger,0.5,0.23,0.4,0.65
  1:3,2,string,F4,sustain,0.4,0.3,0.2,0.5
  2:1,2,,E4,sustain,0.5,0.3,0.25,0.5
  2:4,2,,E4,,0.5,0.3,0.2,0.5

  bleidhvan play score.csv -o piece.wav --tempo 72 --normalise peak=-1

One line is one note or one event: a cell holds no line break, and a line whose quote does not end is
refused by itself. Refused ones, and notes that clip, are empty or silent, are listed with their lines,
the first 20 here and all in catalogue.csv or the report. At most 64 events fall on one frame, those of
slots that sound on among them.

A note whose row, settings and file are as an earlier run left them is kept. A file that an earlier run
rendered, and this sheet does not, is removed, if it is as it was rendered; no other file is touched.
A note that the machine could not do is failed, not refused. Ctrl-C and SIGTERM end a run with all that
is whole, and a catalogue that says what was not rendered; a second one ends it at once. A piece is
written whole or not at all, over one that a run wrote and over no other file.

Exit status: 0 every note was rendered, or is whole, and every event played; 1 some were refused, or are
not whole, or none is ordered; 2 the command, the sheet or the score was wrong, or the folder could not be
written or read; 3 some notes failed, or the piece did; 130 or 143 the run was stopped by SIGINT or SIGTERM.";
