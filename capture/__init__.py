"""A capture of a sniffer, opened by benches: the files, the radio's frames in them, and a listener.

The listener's verdicts are those of the bench that it asks. What is here strips what stands around
a network frame, keeps the keys that were heard, and says it in words. docs/CAPTURE.md is the page.
"""
