/* The job of the engine as one would write it in C without a second thought: the same call, with no faults told. */
#include <string.h>

#include "format.h"
#include "kinds.h"
#include "vividlawn.h"

#define KIND Flow
#define WEIGHT Parts
#include "plain_model.h"

#define KIND Delay
#define WEIGHT Parts
#include "plain_model.h"

#define KIND FaultSet
#define WEIGHT Scenarios
#include "plain_model.h"

#define KIND FirstFault
#define WEIGHT Parts
#include "plain_model.h"

#define KIND Pair
#define WEIGHT Effort
#include "plain_model.h"

#define KIND FlowOrOut
#define WEIGHT Parts
#include "plain_model.h"

#define KIND DelayOrOut
#define WEIGHT Parts
#include "plain_model.h"

#include "call.h"
