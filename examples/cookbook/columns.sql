-- Columns that PostgreSQL computes by itself beside those of the twelve tables, and their indexes: tools/load_postgis --then runs this
-- where it makes tables, and later changes keep them. It may be run again. docs/POSTGIS.md says what each is for.

-- Web Mercator, for a renderer that draws from tables in 3857.
ALTER TABLE roads ADD IF NOT EXISTS way geometry(LineString, 3857) GENERATED ALWAYS AS (ST_Transform(geom, 3857)) STORED;
ALTER TABLE paths ADD IF NOT EXISTS way geometry(LineString, 3857) GENERATED ALWAYS AS (ST_Transform(geom, 3857)) STORED;
ALTER TABLE rails ADD IF NOT EXISTS way geometry(LineString, 3857) GENERATED ALWAYS AS (ST_Transform(geom, 3857)) STORED;
ALTER TABLE pois ADD IF NOT EXISTS way geometry(Point, 3857) GENERATED ALWAYS AS (ST_Transform(geom, 3857)) STORED;
ALTER TABLE places ADD IF NOT EXISTS way geometry(Point, 3857) GENERATED ALWAYS AS (ST_Transform(geom, 3857)) STORED;
ALTER TABLE buildings ADD IF NOT EXISTS way geometry(MultiPolygon, 3857) GENERATED ALWAYS AS (ST_Transform(geom, 3857)) STORED;
ALTER TABLE landuse ADD IF NOT EXISTS way geometry(MultiPolygon, 3857) GENERATED ALWAYS AS (ST_Transform(geom, 3857)) STORED;
CREATE INDEX IF NOT EXISTS roads_way ON roads USING gist (way);
CREATE INDEX IF NOT EXISTS paths_way ON paths USING gist (way);
CREATE INDEX IF NOT EXISTS rails_way ON rails USING gist (way);
CREATE INDEX IF NOT EXISTS pois_way ON pois USING gist (way);
CREATE INDEX IF NOT EXISTS places_way ON places USING gist (way);
CREATE INDEX IF NOT EXISTS buildings_way ON buildings USING gist (way);
CREATE INDEX IF NOT EXISTS landuse_way ON landuse USING gist (way);

-- What lies above: bridges over roads over tunnels, and of one layer the larger road.
ALTER TABLE roads ADD IF NOT EXISTS z_order int GENERATED ALWAYS AS (
    10 * CASE WHEN layer BETWEEN -9 AND 9 THEN layer::int ELSE 0 END
    + CASE WHEN bridge IN ('yes', 'viaduct') THEN 10 ELSE 0 END - CASE WHEN tunnel IN ('yes', 'building_passage') THEN 10 ELSE 0 END
    + CASE split_part(highway, '_', 1)
        WHEN 'motorway' THEN 9 WHEN 'trunk' THEN 8 WHEN 'primary' THEN 7 WHEN 'secondary' THEN 6 WHEN 'tertiary' THEN 5
        WHEN 'unclassified' THEN 3 WHEN 'residential' THEN 3 WHEN 'living' THEN 2 ELSE 1 END
) STORED;

-- The size of an area, in the units of the map, by which larger areas are drawn first; and a point within for its label.
ALTER TABLE landuse ADD IF NOT EXISTS way_area real GENERATED ALWAYS AS (ST_Area(ST_Transform(geom, 3857))) STORED,
    ADD IF NOT EXISTS label geometry(Point, 4326) GENERATED ALWAYS AS (CASE WHEN ST_IsValid(geom) THEN ST_PointOnSurface(geom) END) STORED;
ALTER TABLE buildings ADD IF NOT EXISTS way_area real GENERATED ALWAYS AS (ST_Area(ST_Transform(geom, 3857))) STORED;
ALTER TABLE poi_areas ADD IF NOT EXISTS label geometry(Point, 4326) GENERATED ALWAYS AS (CASE WHEN ST_IsValid(geom) THEN ST_PointOnSurface(geom) END) STORED;

-- Numbers out of texts. What is no number is left empty: a cast that fails would end the load.
ALTER TABLE buildings ADD IF NOT EXISTS metres real GENERATED ALWAYS AS (
    CASE WHEN height ~ '^[0-9]{1,4}([.][0-9]{1,6})?( m)?$' THEN split_part(height, ' ', 1)::real END
) STORED;
ALTER TABLE roads ADD IF NOT EXISTS kmh int GENERATED ALWAYS AS (
    CASE WHEN maxspeed ~ '^[0-9]{1,4}$' THEN maxspeed::int
        WHEN maxspeed ~ '^[0-9]{1,4} mph$' THEN round(split_part(maxspeed, ' ', 1)::int * 1.609344)::int END
) STORED;

-- A direction, as osm2pgsql's type of that name has it.
ALTER TABLE roads ADD IF NOT EXISTS direction smallint GENERATED ALWAYS AS (
    CASE WHEN oneway IN ('yes', 'true', '1') THEN 1 WHEN oneway = '-1' THEN -1 ELSE 0 END
) STORED;

-- Keys out of all tags: one, those with a prefix, and all without some.
CREATE OR REPLACE FUNCTION keys_with(tags jsonb, prefix text) RETURNS jsonb IMMUTABLE PARALLEL SAFE LANGUAGE sql AS
    'SELECT jsonb_object_agg(key, value) FROM jsonb_each(tags) WHERE starts_with(key, prefix)';
ALTER TABLE pois ADD IF NOT EXISTS opening_hours text GENERATED ALWAYS AS (tags->>'opening_hours') STORED,
    ADD IF NOT EXISTS kept jsonb GENERATED ALWAYS AS (tags - '{created_by,source}'::text[]) STORED;
ALTER TABLE places ADD IF NOT EXISTS name_en text GENERATED ALWAYS AS (coalesce(tags->>'name:en', name)) STORED,
    ADD IF NOT EXISTS names jsonb GENERATED ALWAYS AS (keys_with(tags, 'name:')) STORED;

-- Several keys in one column, and one table out of two.
ALTER TABLE landuse ADD IF NOT EXISTS class text GENERATED ALWAYS AS (coalesce(landuse, cover, waterway, leisure)) STORED;
CREATE OR REPLACE VIEW all_pois AS
    SELECT 'node' AS kind, id, name, coalesce(amenity, shop, tourism) AS class, tags, geom FROM pois
    UNION ALL SELECT 'area', id, name, coalesce(amenity, shop, tourism), tags, label FROM poi_areas;
