; PE p loads cell p and then cell 0: for PE 0 both are cell 0
pid r1
ld r13 r1
ld r8 r0            ; r0 is 0
halt
