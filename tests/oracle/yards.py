"""The hand-written yards; `>` stands for one tab, as in document 01."""

YARD_A = """\
RNDF_name>yard_a
num_segments>1
num_zones>0
segment>1
num_lanes>1
lane>1.1
num_waypoints>2
checkpoint>1.1.2>7
exit>1.1.2>1.1.1
1.1.1>45.000000>-93.000000
1.1.2>45.000100>-93.000000
end_lane
end_segment
end_file
""".splitlines()

ROUND_1 = """\
MDF_name>round_1
RNDF>yard_a
checkpoints
num_checkpoints>1
7
end_checkpoints
speed_limits
num_speed_limits>1
1>0>15
end_speed_limits
end_file
""".splitlines()

# A mid-size yard with everything in it.
YARD_B = """\
RNDF_name>yard_b
num_segments>2
num_zones>2
format_version>1.0
creation_date>14-Mar-07
segment>1
num_lanes>2
segment_name>Main_St
lane>1.1
num_waypoints>3
lane_width>12
left_boundary>double_yellow
right_boundary>solid_white
checkpoint>1.1.2>1
checkpoint>1.1.3>2
stop>1.1.3
exit>1.1.3>2.1.1
exit>1.1.3>3.0.2
1.1.1>45.000000>-93.000000
1.1.2>45.000100>-93.000000
1.1.3>45.000200>-93.000000
end_lane
lane>1.2
num_waypoints>2
exit>1.2.2>1.1.1
1.2.1>45.000200>-93.000100
1.2.2>45.000000>-93.000100
end_lane
end_segment
segment>2
num_lanes>1
lane>2.1
num_waypoints>1
stop>2.1.1
2.1.1>-0.500000>0.000001
end_lane
end_segment
zone>3
num_spots>2
zone_name>Lot
perimeter>3.0
num_perimeterpoints>3
exit>3.0.1>1.2.1
exit>3.0.3>2.1.1
3.0.1>1.000000>2.000000
3.0.2>1.000001>2.000001
3.0.3>1.000002>-2.000002
end_perimeter
spot>3.1
spot_width>9
checkpoint>3.1.2>31
3.1.1>1.100000>2.100000
3.1.2>1.200000>2.200000
end_spot
spot>3.2
checkpoint>3.2.2>32
3.2.1>1.300000>2.300000
3.2.2>1.400000>2.400000
end_spot
end_zone
zone>4
num_spots>0
perimeter>4.0
num_perimeterpoints>1
4.0.1>-90.000000>180.000000
end_perimeter
end_zone
end_file
""".splitlines()

MISSION_B = """\
MDF_name>mission_b
RNDF>yard_b
format_version>1.0
creation_date>15-Mar-07
checkpoints
num_checkpoints>4
1
31
1
2
end_checkpoints
speed_limits
num_speed_limits>4
1>5>25
2>0>0
3>0>10
4>10>10
end_speed_limits
end_file
""".splitlines()

# A small yard that passes through every place once.
YARD_C = """\
RNDF_name>c
num_segments>1
num_zones>1
segment>1
num_lanes>1
lane>1.1
num_waypoints>2
1.1.1>1.000000>1.000000
1.1.2>2.000000>2.000000
end_lane
end_segment
zone>2
num_spots>1
perimeter>2.0
num_perimeterpoints>2
2.0.1>3.000000>3.000000
2.0.2>4.000000>4.000000
end_perimeter
spot>2.1
checkpoint>2.1.2>5
2.1.1>5.000000>5.000000
2.1.2>6.000000>6.000000
end_spot
end_zone
end_file
""".splitlines()


def text(lines, end="\n"):
    return "".join(line + end for line in lines).replace(">", "\t").encode("latin-1")


def put(lines, n, *new):
    """Line n (from 1) replaced by the new ones."""
    return lines[:n - 1] + list(new) + lines[n:]


def ins(lines, n, *new):
    """The new lines put before line n."""
    return lines[:n - 1] + list(new) + lines[n - 1:]


def cut(lines, n):
    """Without line n."""
    return lines[:n - 1] + lines[n:]


RNDF_STATEMENTS = [
    "RNDF_name>again", "num_segments>1", "num_zones>1", "format_version>v",
    "creation_date>d", "segment>1", "num_lanes>1", "segment_name>s",
    "lane>1.1", "num_waypoints>2", "lane_width>12",
    "left_boundary>solid_white", "right_boundary>solid_yellow",
    "checkpoint>1.1.1>9", "checkpoint>2.1.1>9", "stop>1.1.1",
    "exit>1.1.1>1.1.2", "exit>2.0.1>1.1.2", "1.1.1>1.000000>1.000000",
    "2.0.1>1.000000>1.000000", "2.1.2>1.000000>1.000000", "end_lane",
    "end_segment", "zone>2", "num_spots>1", "zone_name>z", "perimeter>2.0",
    "num_perimeterpoints>2", "end_perimeter", "spot>2.1", "spot_width>8",
    "end_spot", "end_zone", "end_file",
]

MDF_STATEMENTS = [
    "MDF_name>again", "RNDF>yard_a", "format_version>v", "creation_date>d",
    "checkpoints", "num_checkpoints>1", "7", "end_checkpoints",
    "speed_limits", "num_speed_limits>1", "1>0>15", "end_speed_limits",
    "end_file",
]
