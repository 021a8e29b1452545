/* Shows two journeys in a terminal: a car on a line, and two cars on a loop. */
#include <stdio.h>
#include <string.h>

#include "motion.h"

/* Columns of a drawing. */
enum { LINE_COLUMNS = 41, LOOP_COLUMNS = 21 };

/* The limits of a car. */
typedef struct {
    double max_speed;
    double acceleration;
    double deceleration;
} Limits;

/* Puts `mark` where `position` lies on an axis of `length`. */
static void draw(char *drawing, int columns, double position, double length, char mark)
{
    int column = (int)(position / length * (columns - 1) + 0.5);
    if (column >= 0 && column < columns)
        drawing[column] = mark;
}

static void clear(char *drawing, int columns)
{
    memset(drawing, '.', (size_t)columns);
    drawing[columns] = '\0';
}

static void show_line_tick(double time, const MovementResult *car, double target,
                           double deceleration)
{
    char shaft[LINE_COLUMNS + 1];
    clear(shaft, LINE_COLUMNS);
    draw(shaft, LINE_COLUMNS, car->position, target, '#');
    printf("%5.1f %8.3f %8.3f %8.3f  |%s|\n", time, car->position, car->velocity,
           braking_distance(car->velocity, deceleration), shaft);
}

/* A car from 0 to its target. */
static void show_line(void)
{
    const Limits limits = {.max_speed = 2.0, .acceleration = 1.0, .deceleration = 1.0};
    const double target = 10.0;
    const double dt = 0.5;
    MovementResult car = {.position = 0.0, .velocity = 0.0, .arrived = false};

    printf("A car on a line, from %.0f to %.0f: max speed %.0f, rates %.0f, dt %.1f\n\n",
           car.position, target, limits.max_speed, limits.acceleration, dt);
    puts(" time position velocity  braking  shaft");
    show_line_tick(0.0, &car, target, limits.deceleration);
    for (int tick = 1; !car.arrived; tick++) {
        car = tick_movement(car.position, car.velocity, target, limits.max_speed,
                            limits.acceleration, limits.deceleration, dt);
        show_line_tick(tick * dt, &car, target, limits.deceleration);
    }
}

static void show_loop_tick(double time, const MovementResult *leader,
                           const MovementResult *trailer, double clamped, double length)
{
    char ring[LOOP_COLUMNS + 1];
    clear(ring, LOOP_COLUMNS);
    draw(ring, LOOP_COLUMNS, leader->position, length, 'L');
    draw(ring, LOOP_COLUMNS, trailer->position, length, 'T');
    printf("%5.1f %7.3f %7.3f %7.3f %7.3f %7.3f  |%s| %s\n", time, leader->position,
           trailer->position, clamped,
           forward_distance(trailer->position, leader->position, length),
           cyclic_distance(trailer->position, leader->position, length), ring,
           trailer->arrived ? "stands" : "moves");
}

/* A trailer behind a slower leader, over the seam of a loop. */
static void show_loop(void)
{
    const Limits leader_limits = {.max_speed = 4.0, .acceleration = 1.0, .deceleration = 1.0};
    const Limits trailer_limits = {.max_speed = 10.0, .acceleration = 2.5, .deceleration = 2.5};
    const double length = 100.0;
    const double headway = 10.0;
    const double leader_target = wrap_position(124.0, length); /* past the seam */
    const double trailer_target = 20.0;
    const double dt = 1.0;
    MovementResult leader = {.position = 80.0, .velocity = 0.0, .arrived = false};
    MovementResult trailer = {.position = 28.0, .velocity = 0.0, .arrived = false};

    printf("Two cars on a loop of %.0f, headway %.0f: the leader goes on to %.0f,\n"
           "the trailer wants to go to %.0f\n\n",
           length, headway, leader_target, trailer_target);
    puts(" time  leader trailer clamped forward  cyclic  loop");
    for (int tick = 1; !leader.arrived || !trailer.arrived; tick++) {
        leader = tick_movement_cyclic(leader.position, leader.velocity, leader_target,
                                      leader_limits.max_speed, leader_limits.acceleration,
                                      leader_limits.deceleration, dt, length);
        double clamped = headway_clamp_target(trailer.position, leader.position,
                                              trailer_target, headway, length);
        trailer = tick_movement_cyclic(trailer.position, trailer.velocity, clamped,
                                       trailer_limits.max_speed, trailer_limits.acceleration,
                                       trailer_limits.deceleration, dt, length);
        show_loop_tick(tick * dt, &leader, &trailer, clamped, length);
    }
}

int main(void)
{
    show_line();
    puts("");
    show_loop();
    return 0;
}
