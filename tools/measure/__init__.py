"""What is measured of a trace or a detail: jobs and their response times, threads, waits, priorities and servers."""
