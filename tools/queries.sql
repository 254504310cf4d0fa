-- Views of a database of smpe, for the stock sqlite3. All of them are TEMP views: they live in the session that reads
-- this file, and nothing is written to the database, so that it stays good for smpe. Open it with -readonly besides:
--
--     sqlite3 -readonly -init tools/queries.sql smpe.db "SELECT * FROM not_installed WHERE zone = 'TGT1'"
--
-- A list in a column is split by json_each; its members are names, which need no escapes.

-- The zones, with the zone that each is related to (a target zone to its distribution zone, and the other way round),
-- the number of SYSMODs that it has applied or accepted, and that of its elements.
CREATE TEMP VIEW zones AS
SELECT zone.name AS zone, zone.kind, zone.srel, coalesce(zone.related, target.name) AS related,
  (SELECT count(*) FROM entry WHERE entry.zone = zone.name AND date IS NOT NULL) AS installed,
  (SELECT count(*) FROM zelem WHERE zelem.zone = zone.name) AS elements
FROM zone LEFT JOIN zone AS target ON target.related = zone.name;

-- The ++VERs of each SYSMOD, numbered from 1 among those of one SREL.
CREATE TEMP VIEW vers AS
SELECT id, srel, 1 AS number, fmid, pre, req, sup, npre, del FROM ver
UNION ALL SELECT id, srel, n, fmid, pre, req, sup, '', '' FROM morever;

-- What a SYSMOD states in a ++VER: an operand (FMID, PRE, REQ, SUP, NPRE, DELETE) and one id of it; and IFREQ, an id in
-- the REQ of an ++IF, with the function that the ++IF is about.
CREATE TEMP VIEW states AS
WITH listed (id, srel, number, operand, function, list) AS (
  SELECT id, srel, number, 'FMID', NULL, fmid FROM vers WHERE fmid IS NOT NULL
  UNION ALL SELECT id, srel, number, 'PRE', NULL, pre FROM vers WHERE pre <> ''
  UNION ALL SELECT id, srel, number, 'REQ', NULL, req FROM vers WHERE req <> ''
  UNION ALL SELECT id, srel, number, 'SUP', NULL, sup FROM vers WHERE sup <> ''
  UNION ALL SELECT id, srel, number, 'NPRE', NULL, npre FROM vers WHERE npre <> ''
  UNION ALL SELECT id, srel, number, 'DELETE', NULL, del FROM vers WHERE del <> ''
  UNION ALL SELECT id, srel, 1, 'IFREQ', fmid, req FROM ifreq
  UNION ALL SELECT id, srel, v, 'IFREQ', fmid, req FROM moreif)
SELECT listed.id, srel, number, operand, function, value AS names
FROM listed, json_each('["' || replace(list, ',', '","') || '"]');

-- Which ++VER of a received SYSMOD counts in a zone, of those for its SREL: of what is applied the one by which it was
-- installed, else the first without FMID or with an FMID that is applied, else the first.
CREATE TEMP VIEW counting AS
SELECT zone.name AS zone, ver.id, coalesce(
  CASE WHEN entry.date IS NOT NULL THEN coalesce(chosen.n, 1) END,
  (SELECT min(number) FROM vers LEFT JOIN entry AS function ON function.zone = zone.name AND function.id = vers.fmid
    WHERE vers.id = ver.id AND vers.srel = zone.srel AND (vers.fmid IS NULL OR function.date IS NOT NULL)),
  1) AS number
FROM zone JOIN ver ON ver.srel = zone.srel
LEFT JOIN entry ON entry.zone = zone.name AND entry.id = ver.id
LEFT JOIN chosen ON chosen.zone = zone.name AND chosen.id = ver.id;

-- How an id stands in each zone that knows of it: APPLIED (ACCEPTED in a distribution zone), SUPERSEDED or DELETED.
CREATE TEMP VIEW standing AS
SELECT zone.name AS zone, entry.id,
  CASE WHEN date IS NOT NULL AND kind = 'target' THEN 'APPLIED' WHEN date IS NOT NULL THEN 'ACCEPTED'
    WHEN supby <> '' THEN 'SUPERSEDED' ELSE 'DELETED' END AS stands,
  date, supby, delby, waived
FROM zone JOIN entry ON entry.zone = zone.name;

-- What would supply an id to a zone: the received SYSMOD of that id, and each that names it in SUP, by any ++VER for
-- the zone's SREL, and how they stand there. (An FMID is supplied by the function of that id alone.)
CREATE TEMP VIEW suppliers AS
SELECT zone.name AS zone, wanted, supplier, stands
FROM zone JOIN (
  SELECT id AS wanted, srel, id AS supplier FROM ver
  UNION SELECT names, srel, id FROM states WHERE operand = 'SUP') AS named ON named.srel = zone.srel
LEFT JOIN standing ON standing.zone = zone.name AND standing.id = supplier;

-- Who needs whom in a zone: FMID, PRE, REQ and IFREQ of the received SYSMODs by their ++VERs that count there, an IFREQ
-- only where its function is applied there. `stands` and `needed_stands` say how the two ids stand in the zone; `state`
-- is MET where the zone supplies what is needed, else WAIVED where BYPASS waived it, else OPEN.
CREATE TEMP VIEW needs AS
SELECT zone.name AS zone, states.id, whose.stands AS stands, operand AS kind, function, names AS needed,
  what.stands AS needed_stands,
  CASE WHEN what.date IS NOT NULL OR what.supby <> '' AND operand <> 'FMID' THEN 'MET'
    WHEN instr(',' || whose.waived || ',', ',' || names || ',') > 0 THEN 'WAIVED' ELSE 'OPEN' END AS state
FROM zone JOIN states ON states.srel = zone.srel AND operand IN ('FMID', 'PRE', 'REQ', 'IFREQ')
JOIN counting ON counting.zone = zone.name AND counting.id = states.id AND counting.number = states.number
LEFT JOIN standing AS whose ON whose.zone = zone.name AND whose.id = states.id
LEFT JOIN standing AS what ON what.zone = zone.name AND what.id = names
WHERE function IS NULL
  OR EXISTS (SELECT 1 FROM entry WHERE entry.zone = zone.name AND entry.id = function AND date IS NOT NULL);

-- The holds on received SYSMODs that have a ++VER for a zone's SREL, with how the held SYSMOD stands there; `open` is 0
-- for an ERROR hold whose reason the zone supplies.
CREATE TEMP VIEW held AS
SELECT zone.name AS zone, hold.id, stands, hold.kind, reason, class, hold.date,
  CASE internal WHEN 1 THEN 'INTERNAL' ELSE 'EXTERNAL' END AS origin, comment,
  NOT (hold.kind = 'ERROR' AND EXISTS (SELECT 1 FROM entry WHERE entry.zone = zone.name AND entry.id = reason
    AND (entry.date IS NOT NULL OR entry.supby <> ''))) AS open
FROM zone JOIN ver ON ver.srel = zone.srel JOIN hold ON hold.id = ver.id
LEFT JOIN standing ON standing.zone = zone.name AND standing.id = hold.id;

-- What is not installed in a zone: received, with a ++VER for its SREL, and neither applied nor superseded nor deleted
-- there, with the number of its open holds and of the ids that it needs and the zone does not supply.
CREATE TEMP VIEW not_installed AS
SELECT zone.name AS zone, sysmod.id, sysmod.kind, vers.fmid, coalesce(sourceids, '') AS sources,
  coalesce(holds, 0) AS holds, coalesce(unmet, 0) AS unmet
FROM zone JOIN counting ON counting.zone = zone.name JOIN sysmod ON sysmod.id = counting.id
JOIN vers ON vers.id = sysmod.id AND vers.srel = zone.srel AND vers.number = counting.number
LEFT JOIN entry ON entry.zone = zone.name AND entry.id = sysmod.id
LEFT JOIN (SELECT id, group_concat(name) AS sourceids FROM (SELECT id, name FROM source ORDER BY id, name)
  GROUP BY id) AS s ON s.id = sysmod.id
LEFT JOIN (SELECT zone, id, count(*) AS holds FROM held WHERE open GROUP BY zone, id) AS h
  ON h.zone = zone.name AND h.id = sysmod.id
LEFT JOIN (SELECT zone, id, count(DISTINCT needed) AS unmet FROM needs WHERE state = 'OPEN' GROUP BY zone, id) AS n
  ON n.zone = zone.name AND n.id = sysmod.id
WHERE entry.id IS NULL;

-- The level of each element of a zone, and how many records it has.
CREATE TEMP VIEW element_level AS
SELECT zone, type, name, fmid, rmid, umid, distlib, syslib, length(text) / 80 AS records FROM zelem;

-- What brings an element: each element statement of the received SYSMODs that have a ++VER for a zone's SREL, and how
-- the SYSMOD stands in that zone.
CREATE TEMP VIEW element_service AS
SELECT zone.name AS zone, type, elem.name, elem.id, CASE upd WHEN 1 THEN 'UPDATE' ELSE 'REPLACEMENT' END AS brings,
  length(text) / 80 AS records, stands
FROM zone JOIN ver ON ver.srel = zone.srel JOIN elem ON elem.id = ver.id
LEFT JOIN standing ON standing.zone = zone.name AND standing.id = elem.id;

-- The elements that are not the same in a target zone and in the distribution zone that is related to it. In front
-- stands what the target zone has; `text` says whether the records differ too.
CREATE TEMP VIEW element_difference AS
WITH keys AS (
  SELECT zone.name AS target, related, type, zelem.name FROM zone JOIN zelem ON zone IN (zone.name, related)
  WHERE related IS NOT NULL GROUP BY 1, 2, 3, 4)
SELECT target, related, keys.type, keys.name, t.fmid, t.rmid, t.umid,
  d.fmid AS related_fmid, d.rmid AS related_rmid, d.umid AS related_umid,
  CASE WHEN t.text IS d.text THEN 'SAME' ELSE 'OTHER' END AS text
FROM keys
LEFT JOIN zelem AS t ON t.zone = target AND t.type = keys.type AND t.name = keys.name
LEFT JOIN zelem AS d ON d.zone = related AND d.type = keys.type AND d.name = keys.name
WHERE t.fmid IS NOT d.fmid OR t.rmid IS NOT d.rmid OR t.umid IS NOT d.umid OR t.text IS NOT d.text;

-- The ids that do not stand alike in a target zone and in its distribution zone: what is applied and not accepted
-- first of all.
CREATE TEMP VIEW sysmod_difference AS
WITH keys AS (
  SELECT zone.name AS target, related, id FROM zone JOIN entry ON zone IN (zone.name, related)
  WHERE related IS NOT NULL GROUP BY 1, 2, 3)
SELECT target, related, keys.id, t.stands, t.date, d.stands AS related_stands, d.date AS related_date
FROM keys
LEFT JOIN standing AS t ON t.zone = target AND t.id = keys.id
LEFT JOIN standing AS d ON d.zone = related AND d.id = keys.id
WHERE replace(coalesce(t.stands, ''), 'APPLIED', 'ACCEPTED') <> coalesce(d.stands, '');

-- What is applied in a target zone and neither accepted nor superseded in its distribution zone: since when, and how
-- many open holds and unmet needs it has in the distribution zone.
CREATE TEMP VIEW unaccepted AS
SELECT zone.name AS zone, related, entry.id, sysmod.kind, entry.date, n.holds, n.unmet
FROM zone JOIN entry ON entry.zone = zone.name AND entry.date IS NOT NULL
LEFT JOIN entry AS accepted ON accepted.zone = related AND accepted.id = entry.id
LEFT JOIN sysmod ON sysmod.id = entry.id
LEFT JOIN not_installed AS n ON n.zone = related AND n.id = entry.id
WHERE related IS NOT NULL AND accepted.id IS NULL;

-- What was put on over a requisite or a hold: each requisite that BYPASS waived, and each hold that stands on what is
-- applied. `sure` is YES where BYPASS alone can have done that: a waived requisite, or an internal hold. An external
-- hold may have been received later, so it is PERHAPS, and is left out if its DATE is after the day of the APPLY or the
-- zone supplies its reason. `open` is 0 where the zone supplies the requisite by now. (A requisite of a function that
-- is in none of its own operands is one that the ++IF of another SYSMOD states for it.)
CREATE TEMP VIEW bypassed AS
SELECT zone.name AS zone, entry.id, entry.date, coalesce(states.operand, 'IFREQ') AS kind, waived.value AS reason,
  NULL AS class, NULL AS origin, 'YES' AS sure,
  NOT EXISTS (SELECT 1 FROM entry AS what WHERE what.zone = zone.name AND what.id = waived.value
    AND (what.date IS NOT NULL OR what.supby <> '')) AS open, NULL AS comment
FROM zone JOIN entry ON entry.zone = zone.name AND entry.date IS NOT NULL AND entry.waived <> ''
JOIN json_each('["' || replace(entry.waived, ',', '","') || '"]') AS waived
LEFT JOIN chosen ON chosen.zone = zone.name AND chosen.id = entry.id
LEFT JOIN states ON states.id = entry.id AND states.srel = zone.srel AND states.number = coalesce(chosen.n, 1)
  AND states.operand IN ('PRE', 'REQ', 'IFREQ') AND states.names = waived.value
  AND (function IS NULL OR EXISTS (
    SELECT 1 FROM entry AS f WHERE f.zone = zone.name AND f.id = function AND f.date IS NOT NULL))
GROUP BY zone.name, entry.id, states.operand, waived.value
UNION ALL
SELECT zone, held.id, entry.date, held.kind, reason, class, origin,
  CASE origin WHEN 'INTERNAL' THEN 'YES' ELSE 'PERHAPS' END, 1, comment
FROM held JOIN entry USING (zone, id)
WHERE entry.date IS NOT NULL AND open
  AND (origin = 'INTERNAL' OR held.date IS NULL OR held.date <= replace(entry.date, '.', ''));

-- What is applied and not superseded in a zone in spite of an ERROR hold whose reason the zone does not supply, as
-- REPORT ERRSYSMODS finds it: the hold's class and date, since when the SYSMOD is applied, and for how many days.
CREATE TEMP VIEW exposed AS
SELECT zone, held.id, reason, class, held.date, entry.date AS since,
  CAST(julianday('now', 'localtime', 'start of day')
    - julianday('20' || substr(entry.date, 1, 2) || '-01-01') - substr(entry.date, 4) + 1 AS INTEGER) AS days, comment
FROM held JOIN entry USING (zone, id)
WHERE held.kind = 'ERROR' AND open AND entry.date IS NOT NULL AND entry.supby = '';

-- The steps from a SYSMOD to each id that its ++VER which counts in a zone names in PRE, SUP or FMID.
CREATE TEMP VIEW steps AS
SELECT counting.zone, counting.id, operand, names
FROM counting JOIN zone ON zone.name = counting.zone
JOIN states ON states.id = counting.id AND states.srel = zone.srel AND states.number = counting.number
WHERE operand IN ('PRE', 'SUP', 'FMID');

-- The elements of a zone whose level lost what a SYSMOD that is applied there has changed: REPLACED where `by`, the
-- RMID, is not over the SYSMOD and neither the RMID nor a UMID supersedes it; UPDATED where `by`, a UMID, is not over
-- it and was put on it, so that the lines which both change are those of `by`. `fixes` is what the SYSMOD supersedes.
-- (Who is over whom leads through received SYSMODs alone; an update that one over it makes on the same day is not
-- seen.)
CREATE TEMP VIEW regressed AS
WITH RECURSIVE
changed AS (
  SELECT zelem.zone, type, name, rmid, umid, elem.id, supby
  FROM elem JOIN zelem USING (type, name) JOIN entry ON entry.zone = zelem.zone AND entry.id = elem.id
  WHERE date IS NOT NULL AND elem.id <> zelem.fmid AND elem.id <> rmid),
replaced AS (
  SELECT zone, type, name, id, rmid AS by FROM changed
  WHERE instr(',' || umid || ',', ',' || id || ',') = 0 AND instr(',' || supby || ',', ',' || rmid || ',') = 0
    AND NOT (umid <> '' AND supby <> '' AND EXISTS (
      SELECT 1 FROM json_each('["' || replace(umid, ',', '","') || '"]') AS u
      WHERE instr(',' || supby || ',', ',' || u.value || ',') > 0))),
updates AS (
  SELECT zone, zelem.type, name, rmid, umid, u.value AS by
  FROM zelem, json_each('["' || replace(umid, ',', '","') || '"]') AS u WHERE umid <> ''),
updated AS (
  SELECT zone, type, name, rmid AS id, by, 1 AS is_below FROM updates
  UNION ALL
  SELECT updates.zone, updates.type, name, u.value, by, below.date < above.date
  FROM updates, json_each('["' || replace(umid, ',', '","') || '"]') AS u
  JOIN entry AS above ON above.zone = updates.zone AND above.id = by
  JOIN entry AS below ON below.zone = updates.zone AND below.id = u.value
  WHERE u.value <> by AND below.date <= above.date),
step AS (SELECT DISTINCT zone, id, names FROM steps),
over (zone, by, id) AS (
  SELECT zone, by, by FROM replaced UNION SELECT zone, by, by FROM updates
  UNION
  SELECT step.zone, over.by, names FROM over JOIN step ON step.zone = over.zone AND step.id = over.id)
SELECT lost.zone, lost.type, lost.name, lost.id, how, lost.by, sup AS fixes
FROM (
  SELECT zone, type, name, id, 'REPLACED' AS how, by, 1 AS is_below FROM replaced
  UNION ALL SELECT zone, type, name, id, 'UPDATED', by, is_below FROM updated) AS lost
LEFT JOIN over AS way ON way.zone = lost.zone AND way.by = lost.by AND way.id = lost.id
LEFT JOIN over AS back ON back.zone = lost.zone AND back.by = lost.id AND back.id = lost.by
JOIN zone ON zone.name = lost.zone
JOIN counting ON counting.zone = lost.zone AND counting.id = lost.id
JOIN vers ON vers.id = lost.id AND vers.srel = zone.srel AND vers.number = counting.number
WHERE way.id IS NULL AND (is_below OR back.id IS NULL);
