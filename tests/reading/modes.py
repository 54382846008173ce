"""The random plants by subject: each mode gives chart and script of a seed."""

import mode_control
import mode_debug
import mode_image
import mode_steps
import mode_tasks
import plants

MODES = {
    "whole": plants.plant,
    "steps": mode_steps.plant,
    "control": mode_control.plant,
    "tasks": mode_tasks.plant,
    "image": mode_image.plant,
    "debug": mode_debug.plant,
}
