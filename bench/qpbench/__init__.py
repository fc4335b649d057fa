"""What the benches share: calls that are measured, the workloads, the peers in C++, and figures beside what is asked of them."""
