/* racy: a vector grows without its lock */
#include <mutex>
#include <thread>
#include <vector>

int main()
{
    std::mutex mutex;
    std::vector<int> words(4);
    std::thread one([&] {
        std::lock_guard<std::mutex> guard(mutex);
        words.push_back(1);
    });
    std::thread other([&] { words.push_back(2); });
    one.join();
    other.join();
    return 0;
}
