"""Runs of microcode cycle by cycle, as `silc_show trace` prints them, and waveforms of them."""
