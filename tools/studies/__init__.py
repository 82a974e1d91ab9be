"""Fast-time simulation of encounters, flown without and with the guidance: what tools/study is made of.

All that decides is whole numbers: the same study, seed and number give the same row on every machine.
"""
