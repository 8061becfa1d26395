; PE p adds p to cell 0 and then to cell p, without a fence in between
pid r1
faa r2 r0 r1
faa r3 r1 r1
halt
