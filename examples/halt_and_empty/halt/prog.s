; each PE halts at once
halt
