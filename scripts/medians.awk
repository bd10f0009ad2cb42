# Of lines 'ELAPSED PROCESSOR PEAK ELAPSED PROCESSOR PEAK', one a round: the medians of the two elapsed times, and the
# median of the rounds' ratios.
function median(values, n,    i, j, v) {
    for (i = 2; i <= n; i++) {
        v = values[i]
        for (j = i - 1; j > 0 && values[j] > v; j--) values[j + 1] = values[j]
        values[j + 1] = v
    }
    return n % 2 ? values[(n + 1) / 2] : (values[n / 2] + values[n / 2 + 1]) / 2
}
{ first[NR] = $1; second[NR] = $4; ratio[NR] = $1 / $4 }
END { printf "%.4f %.4f %.3f\n", median(first, NR), median(second, NR), median(ratio, NR) }
