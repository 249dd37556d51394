"""From the text of ftrace, the tracer of the Linux kernel, to the lines of a trace."""
