// A class whose destructor frees the histogram. It can be moved, and not copied by accident.
//     c++ -std=c++17 raii.cpp $(pkg-config --cflags --libs dkap) -o raii
#include <dkap.h>

#include <iostream>
#include <stdexcept>
#include <utility>

class Histogram {
public:
    explicit Histogram(std::uint8_t digits) { check(dkap_init_auto(&handle, digits)); }
    Histogram(Histogram &&other) noexcept : handle(std::exchange(other.handle, DKAP_CLOSED)) {}
    Histogram(const Histogram &) = delete;
    Histogram &operator=(const Histogram &) = delete;
    ~Histogram() { dkap_close(&handle); }

    void record(std::uint64_t value) { check(dkap_record(&handle, value)); }
    std::uint64_t quantile(std::uint64_t num, std::uint64_t den) const
    {
        std::uint64_t value = 0;
        check(dkap_value_at_quantile(&handle, num, den, &value));
        return value;
    }

private:
    static void check(dkap_status status)
    {
        if (status != DKAP_OK) throw std::runtime_error(dkap_strerror(status));
    }

    dkap_histogram handle = DKAP_CLOSED;
};

int main()
{
    Histogram histogram(3);
    for (std::uint64_t value = 1; value <= 1000; value++) histogram.record(value);
    Histogram moved = std::move(histogram);
    std::cout << "p99 " << moved.quantile(99, 100) << "\n";
    try {
        histogram.record(1);
    } catch (const std::runtime_error &error) {
        std::cout << error.what() << "\n";
    }
}
