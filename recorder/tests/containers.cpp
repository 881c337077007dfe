// C++ containers and strings: `containers COUNT..`. bench.py measures it, and instructions.py counts its second call.
#include <cstdio>
#include <cstdlib>
#include <map>
#include <string>
#include <vector>

// With a plain name for instructions.py, and a call for each count.
extern "C" __attribute__((noinline)) long containers(long rounds)
{
    std::map<std::string, std::vector<long>> table;
    long sum = 0;
    for (long i = 0; i < rounds; i++) {
        std::vector<long> &row = table["a key of some length " + std::to_string(i % 5000)];
        row.push_back(i);
        for (long number : row)
            sum += number;
        if (row.size() > 20)
            table.erase(table.begin());
    }
    return sum;
}

int main(int count, char **argv)
{
    for (int i = 1; i < count; i++)
        std::printf("%ld\n", containers(std::atol(argv[i])));
    return 0;
}
