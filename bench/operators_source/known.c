void operator_bench_known(void) {}
