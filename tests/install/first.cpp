// A first planner in C++: a car drives in, the lift takes it down, and the floor is drawn.
#include <station.h>

#include <drawing.h>

#include <array>
#include <cstdint>
#include <iostream>
#include <stdexcept>
#include <string>

static std::array<std::uint8_t, STATION_SIZE> room;

// Goes on if the call was taken, else throws the number that refuses it.
static std::uint32_t taken(const std::string &what, std::uint32_t answer) {
    if (STATION_NUMBER(answer) != STATION_TAKEN)
        throw std::runtime_error(what + ": refused with " + std::to_string(STATION_NUMBER(answer)));
    std::cout << what << ": taken\n";
    return answer;
}

int main() try {
    const std::array<std::uint8_t, STATION_CODE_SIZE> down{GARAGE_LIFT, GARAGE_BASEMENT, 0, 0, 0};
    std::array<std::uint8_t, STATION_SHOWN_SIZE> shown{};
    std::array<std::uint8_t, DRAWING_MOST> text{};

    taken("start", station_start(room.data(), room.size()));
    taken("a drive in begins", station_event(room.data(), room.size(), STATION_BEGIN_IN));
    taken("it has ended, done", station_event(room.data(), room.size(), STATION_END_DONE));

    const auto set = taken("the lift down", station_request(room.data(), room.size(), 1, down.data(), down.size()));
    // here the motor runs, and tells how it ended
    taken("it is done", station_result(room.data(), room.size(), STATION_SET(set), 0, STATION_DONE));

    taken("the record", station_ask(room.data(), room.size(), shown.data(), shown.size()));
    std::uint64_t image = 0;
    for (int i = STATION_IMAGE_SIZE - 1; i >= 0; i--) image = image << 8 | shown[i];
    const auto drawn = drawing_write(image, text.data(), text.size());
    std::cout << garage_cars(image) << " cars\n" << std::string(text.begin(), text.begin() + DRAWING_LENGTH(drawn));
} catch (const std::exception &wrong) {
    std::cerr << wrong.what() << '\n';
    return 1;
}
