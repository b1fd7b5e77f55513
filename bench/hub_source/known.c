void hub_bench_known(void) {}
