/* The exported functions of libmotion.a. It needs no other library.

   A circumference is no circle where it is not finite or not above 0. Each function takes any double and
   says below what it gives there. */
#ifndef MOTION_H
#define MOTION_H

#include <stdbool.h>

/* A car after one tick. */
typedef struct {
    double position; /* where it is */
    double velocity; /* signed */
    bool arrived;    /* whether it stands at its target */
} MovementResult;

/* p brought into [0, circumference). On no circle, and where p is not finite: p as it is. */
double wrap_position(double p, double circumference);

/* The way forward from `from` to `to` along a loop, from 0 to the circumference: the whole of it where `to` lies
   behind `from` by less than rounding shows, as from 1e-20 to 0 on 10. On no circle, and where a position is
   not finite: 0. */
double forward_distance(double from, double to, double circumference);

/* The shorter way between a and b along a loop. On no circle: 0. */
double cyclic_distance(double a, double b, double circumference);

/* The distance to brake to a stop; 0 where the deceleration is 0 or below. */
double braking_distance(double velocity, double deceleration);

/* The target a trailing car may aim at: its own, or as far as the headway behind the leader. On no circle, and
   where the headway is not finite: its own, as it is. */
double headway_clamp_target(double trailer_position, double leader_position,
                            double intended_target, double min_headway,
                            double circumference);

/* One tick of a car on a line, toward its target. */
MovementResult tick_movement(double position, double velocity,
                             double target_position, double max_speed,
                             double acceleration, double deceleration,
                             double dt);

/* One tick of a car on a loop, forward to its target. On no circle the car stays where it is, with velocity 0,
   and has not arrived. */
MovementResult tick_movement_cyclic(double position, double velocity,
                                    double target_position, double max_speed,
                                    double acceleration, double deceleration,
                                    double dt, double circumference);

#endif
