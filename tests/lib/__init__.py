"""What the tests, the scripts and the benchmarks share: requests and replies, servers, book_driver, and the refusal of memory."""
