; no instruction: each PE faults, since it is past the end
