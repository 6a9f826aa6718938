# For the scripts beside this one: the median of a list of n numbers, as a function of awk. The list is left sorted.
median='
    function median(list, n,   i, j, held) {
        for (i = 2; i <= n; i++) {
            held = list[i]
            for (j = i - 1; j > 0 && list[j] > held; j--) list[j + 1] = list[j]
            list[j + 1] = held
        }
        return list[int((n + 1) / 2)]
    }
'
