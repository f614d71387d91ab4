"""Libraries of Debian that `tools/bench --peers` measures next to our own work, with similar tasks on the same numbers.

| File | Content |
|---|---|
| `libraries` | the programs that are built from the sources here, and how they are run |
| `inputs` | the numbers that all of them get |
| `measuring` | ours and theirs in turns, and the table |
| `decoder_fec.c`, `decoder_itpp.cpp` | libfec's and IT++'s decoder of the code of constraint length 9 |
| `search_fftw.c` | all phases of a correlation at once by FFTW, in single and in double precision |
| `resampler_gnuradio.py` | GNU Radio's resampler with the pulse as its filter |
"""
