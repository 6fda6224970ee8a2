// What a conversion works on. Numbers are MuJoCo's: metres, kilograms, seconds, radians, in doubles. An index counts
// from 0 as in mjModel; what is told on standard error counts from 1 (the world is body 0 in both).
#ifndef PLAN_H
#define PLAN_H
#include <mujoco/mujoco.h>
#include <stdbool.h>

#include "text.h"

// LOST: mj has nothing for it, so without --drop nothing is written. OVER: past a limit of mj, so nothing is written.
// OTHER: the same physics by another rule. NOTE: worth knowing.
typedef enum { LOST, OVER, OTHER, NOTE, KINDS } Kind;

typedef struct {
  bool drop, near, explicit_damping, quiet;
  const char *key, *file;  // key: a keyframe's name or number from 1; NULL: the model's own start
} Words;

// A force -stiffness (x - rest) - damping x' on a joint or a tendon.
typedef struct {
  double stiffness, rest, damping;
} Spring;

// How a contact answers: of one geom, or of a pair after mixing. margin: metres within which the contact has rows.
typedef struct {
  int condim;
  double friction, margin, solref[2], solimp[5];
} Touch;

// A motor as written: gear times the control is the force on the joint or the tendon.
typedef struct {
  int actuator, joint, tendon;  // of joint and tendon one is -1
  double gear, range[2];
  bool limited;
} Motor;

typedef struct {
  const Words* words;
  const mjModel* model;
  int found[KINDS];
  Spring *joint, *tendon;  // each with its servos: njnt, ntendon
  Motor* motors;           // nu at most
  int motor_count;
  Touch* touch;                // as written: ngeom
  bool* meets;                 // whether MuJoCo tests the pair: ngeom x ngeom, symmetric
  bool* felt;                  // whether a geom meets any: ngeom
  int *contype, *conaffinity;  // as written: ngeom
  Text text;
} Plan;

// Tells one finding on a line: KIND: OBJECT[NUMBER] (NAME): WHAT. A number below 0 and an empty name are left out.
void find(Plan* plan, Kind kind, const char* object, int number, const char* name, const char* form, ...)
    __attribute__((format(printf, 6, 7)));
// OVER where value isn't within low and high.
void within(Plan* plan, double value, double low, double high, const char* object, int number, const char* what);

mjModel* load(Plan* plan);                  // load.c: NULL where MuJoCo refuses the file, which is told
void drive(Plan* plan);                     // drive.c: motors, and springs with servos
void touch(Plan* plan);                     // contact.c: which geoms meet, and how they answer
void write_model(Plan* plan);               // model.c: the text
void write_geoms(Plan* plan, int carrier);  // shape.c: geoms that the body `carrier` carries
void write_drives(Plan* plan);              // drive.c: tendons and motors

// Names and frames (model.c)
const char* name_of(const mjModel* model, int type, int index);
const char* joint_name(const Plan* plan, int joint);
double start_of(const mjModel* model, int joint);  // qpos0 of a hinge or a slide: mj measures from it
bool scalar(const mjModel* model, int joint);      // a hinge or a slide
// Raises a pose in the frame of `body` to that of `carrier`, which is body or above it: metres, quaternion (w x y z).
void raise_frame(const mjModel* model, int body, int carrier, double pos[3], double quat[4]);

// Softness (model.c): written as it is, or first made what MuJoCo uses.
void write_softness(Plan* plan, const char* suffix, const double solref[2], const double solimp[5], const char* object,
                    int number);
void write_soft_row(Plan* plan, const char* suffix, const double* solref, const double* solimp, const char* object,
                    int number);
bool disabled(const mjModel* model, int flag);
bool same(double a, double b);  // but for rounding

// Softness as mj writes it (contact.c)
void usable_solref(Plan* plan, double solref[2]);
void usable_solimp(double solimp[5]);
#endif
