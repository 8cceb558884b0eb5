"""The map: rows, nets, masts and covers as GeoJSON features, in metres of the plan's frame. A property is a number or a text, names in it with '; ' between, and its name has at most ten letters:
GeoPackage and Shapefile take no other."""
import re
from fractions import Fraction

from planning.ending import bad, one_line
from planning.output import above, below, cell, day_records, json_text, net_answer, outward, schedule_records, window_records
from planning.schedule import schedule

FRAME = "x and y of the plan, in metres; not longitude and latitude"
OWN = 'LOCAL_CS["the plan\'s own frame",UNIT["metre",1],AXIS["x",EAST],AXIS["y",NORTH]]'


def rectangle(area):
    x0, y0, x1, y1 = outward(area)
    return {"type": "Polygon", "coordinates": [[[x0, y0], [x1, y0], [x1, y1], [x0, y1], [x0, y0]]]}


def feature(geometry, **properties):
    return {"type": "Feature", "geometry": geometry, "properties": {key: cell(value) if isinstance(value, list) else value for key, value in properties.items()}}


def area_of(box):
    return [box[0], box[1], box[3], box[4]]


# ---- what the answer to a question says beside what every map has

def told_of_day(answers):
    return [{key: record[key] for key in ("start_tick", "end_tick", "from", "to")} for record in day_records(answers)]


def told_of_windows(answers):
    found = {answer.boom.name: [] for answer in answers.booms}
    for record in window_records(answers):
        if record["answer"] == "may meet":
            for one, other in ((record["boom"], record["other"]), (record["other"], record["boom"])):
                found[one].append("%s from %s to %s s" % (other, record["from"], record["to"]))
    return [{"may_meet": met} for met in found.values()]


def told_of_net(found, names):
    """The least clearance of some answers of net and boom, whether all are below, and the names of those that aren't."""
    under = [one for one in found if one.top is not None]
    least = min(under, key=lambda one: one.clearance) if under else found[0]
    return {"clearance": below(least.clearance) if under else None, "answer": net_answer(least), "not_below": [name for one, name in zip(found, names) if not one.below()]}


def told(answers, question):
    """Of each boom, in their order."""
    if question == "day":
        return told_of_day(answers)
    if question == "windows":
        return told_of_windows(answers)
    if question == "nets" and answers.plan.nets:
        names = [net.name for net in answers.plan.nets]
        return [told_of_net([answers.nets[n, b] for n in range(len(names))], names) for b in range(len(answers.booms))]
    return [{} for _ in answers.booms]


# ---- features

def row_features(answers):
    for place, row in enumerate(answers.plan.rows):
        yield feature(rectangle(row.area), what="row", name=row.name, booms=answers.reached_by(place))


def schedule_features(answers, of_day):
    """A row for each time in which a boom may reach it."""
    found = schedule(answers, of_day)
    for one, record in zip(found, schedule_records(answers, found)):
        yield feature(rectangle(answers.plan.rows[one.row].area), what="schedule", name=record["row"], boom=record["boom"], **{key: record[key] for key in ("from", "to")})


def net_features(answers, question):
    names = [answer.boom.name for answer in answers.booms]
    for n, net in enumerate(answers.plan.nets):
        more = told_of_net([answers.nets[n, b] for b in range(len(names))], names) if question == "nets" else {}
        yield feature(net_geometry(net), what="net", name=net.name, height=below(net.height), **more)


def cover_features(answers, question):
    """Of each box of a boom, without spray and with it, the cover and the rows that the box may reach; what the question says is of the boom."""
    for answer, more in zip(answers.booms, told(answers, question)):
        for sprays in [False] + [True] * answer.sprays:
            for k, cover in enumerate(answer.covers_in_plan(sprays)):
                rows = [answers.plan.rows[place].name for place in answer.rows_of_box(k, sprays)]
                yield feature(rectangle(area_of(cover)), what="cover", name=answer.boom.name, of="boom and spray" if sprays else "boom", box=k + 1,
                              z0=below(cover[2]), z1=above(cover[5]), rows=rows, **more)


def mast_features(answers):
    for answer in answers.booms:
        yield feature({"type": "Point", "coordinates": [nearest(v) for v in answer.boom.mast[:2]]}, what="mast", name=answer.boom.name)


def nearest(value):
    return below(value + Fraction(1, 2000))


def net_geometry(net):
    """A rectangle, a line, or nothing for a net that is everywhere."""
    if net.region:
        return rectangle(net.region)
    if net.line:
        x0, y0, x1, y1 = [nearest(v) for v in net.line]
        return {"type": "LineString", "coordinates": [[x0, y0], [x1, y1]]}
    return None


def frame_of(name):
    """The members that say the frame, one for map programs, which would take degrees of longitude without it, and one for people: the plan's own, or one of the EPSG register."""
    if name is None:
        return {"crs": {"type": "name", "properties": {"name": OWN}}, "frame": FRAME}
    found = re.fullmatch("EPSG:([0-9]{1,6})", name.upper(), re.ASCII)
    if not found:
        raise bad("--frame: '%s' is no frame; a number of the EPSG register is wanted, as EPSG:2056" % one_line(name, 60))
    return {"crs": {"type": "name", "properties": {"name": "urn:ogc:def:crs:EPSG::%s" % found[1]}}, "frame": "x and y of EPSG:%s, in metres" % found[1]}


def geojson_text(answers, question, frame=None, of_day=False):
    waterings = schedule_features(answers, of_day) if question == "schedule" else []
    found = [*row_features(answers), *waterings, *net_features(answers, question), *mast_features(answers), *cover_features(answers, question)]
    return json_text({"type": "FeatureCollection", "name": answers.plan.name, **frame_of(frame), "features": found}) + "\n"
