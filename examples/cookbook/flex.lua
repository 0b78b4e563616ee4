-- The twelve tables of this folder for osm2pgsql's flex output (1.8 or later), in degrees: what an operator of osm2pgsql would have
-- written. bench/same_rows compares the rows of both.

local tables = {}

-- Makes a table: its columns are texts, or whole numbers where a list of names says so, or all tags as JSON.
local function define(name, source, geometry, keys, ints, with_tags)
    local columns = {}
    for _, key in ipairs(keys) do
        table.insert(columns, { column = key, type = ints and ints[key] and 'int8' or 'text' })
    end
    if with_tags then
        table.insert(columns, { column = 'tags', type = 'jsonb' })
    end
    table.insert(columns, { column = 'geom', type = geometry, projection = 4326, not_null = true })
    tables[name] = osm2pgsql.define_table({ name = name, ids = { type = source, id_column = 'id' }, columns = columns })
end

local POI = { 'name', 'amenity', 'shop', 'tourism' }

define('roads', 'way', 'linestring',
    { 'highway', 'name', 'ref', 'oneway', 'lanes', 'maxspeed', 'layer', 'bridge', 'tunnel', 'buses', 'cycles' }, { lanes = true, layer = true })
define('paths', 'way', 'linestring', { 'highway', 'name', 'surface', 'foot', 'bicycle', 'tracktype', 'layer' }, { layer = true })
define('rails', 'way', 'linestring',
    { 'railway', 'name', 'service', 'usage', 'gauge', 'layer', 'bridge', 'tunnel' }, { gauge = true, layer = true })
define('pois', 'node', 'point', POI, nil, true)
define('poi_areas', 'area', 'multipolygon', POI, nil, true)
define('places', 'node', 'point', { 'place', 'name', 'capital', 'population' }, { population = true }, true)
define('addresses', 'node', 'point', { 'housenumber', 'street', 'place', 'postcode', 'city' })
define('buildings', 'area', 'multipolygon', { 'building', 'name', 'levels', 'height', 'housenumber', 'street' }, { levels = true })
define('landuse', 'area', 'multipolygon', { 'landuse', 'cover', 'waterway', 'leisure', 'name' })
define('borders', 'area', 'multipolygon', { 'admin_level', 'name', 'code' }, { admin_level = true })
define('bus_routes', 'relation', 'multilinestring', { 'ref', 'name', 'origin', 'destination', 'operator', 'network' })
define('routes', 'relation', 'multilinestring', { 'route', 'ref', 'name', 'network', 'osmc_symbol' })

local function set(list)
    local of = {}
    for _, value in ipairs(list) do of[value] = true end
    return of
end

local ROADS = set({ 'motorway', 'motorway_link', 'trunk', 'trunk_link', 'primary', 'primary_link', 'secondary', 'secondary_link', 'tertiary',
    'tertiary_link', 'unclassified', 'residential', 'living_street', 'service' })
local PATHS = set({ 'footway', 'path', 'cycleway', 'bridleway', 'steps', 'pedestrian', 'track' })
local RAILS = set({ 'rail', 'light_rail', 'subway', 'tram', 'narrow_gauge', 'monorail', 'funicular' })
local PLACES = set({ 'city', 'town', 'village', 'hamlet', 'isolated_dwelling', 'suburb', 'quarter', 'neighbourhood' })
local NATURAL = set({ 'water', 'wood', 'scrub', 'heath', 'grassland', 'wetland', 'beach', 'bare_rock', 'glacier' })
local LEISURE = set({ 'park', 'garden', 'pitch', 'golf_course', 'nature_reserve' })
local ROUTES = set({ 'hiking', 'foot', 'bicycle', 'mtb', 'horse', 'ski' })

-- A whole number is an optional minus and up to 18 digits.
local function int(text)
    local digits = text and text:match('^%-?(%d+)$')
    return digits and #digits <= 18 and text or nil
end

local function is_poi(tags)
    return tags.amenity or tags.shop or tags.tourism or tags.leisure or tags.historic or tags.office or tags.craft
end

local function poi(tags)
    return { name = tags.name, amenity = tags.amenity, shop = tags.shop, tourism = tags.tourism, tags = tags }
end

-- The refs of routes by kind, way and relation: what one hands to its ways in stage two.
local refs_of = { bus = {}, bicycle = {} }

local function refs(kind, way)
    local list, seen = {}, {}
    for _, ref in pairs(refs_of[kind][way] or {}) do
        if not seen[ref] then
            seen[ref] = true
            table.insert(list, ref)
        end
    end
    table.sort(list)
    return #list > 0 and table.concat(list, ',') or nil
end

function osm2pgsql.process_node(object)
    local tags = object.tags
    local function point() return object:as_point() end
    if is_poi(tags) then
        local row = poi(tags)
        row.geom = point()
        tables.pois:insert(row)
    end
    if tags.name and PLACES[tags.place] then
        tables.places:insert({ place = tags.place, name = tags.name, capital = tags.capital, population = int(tags.population), tags = tags,
            geom = point() })
    end
    if tags['addr:housenumber'] then
        tables.addresses:insert({ housenumber = tags['addr:housenumber'], street = tags['addr:street'], place = tags['addr:place'],
            postcode = tags['addr:postcode'], city = tags['addr:city'], geom = point() })
    end
end

-- The rows of an area, whose geometry is made anew for each.
local function areas(tags, area)
    if is_poi(tags) then
        local row = poi(tags)
        row.geom = area()
        tables.poi_areas:insert(row)
    end
    if tags.building and tags.building ~= 'no' then
        tables.buildings:insert({ building = tags.building, name = tags.name, levels = int(tags['building:levels']), height = tags.height,
            housenumber = tags['addr:housenumber'], street = tags['addr:street'], geom = area() })
    end
    if tags.landuse or NATURAL[tags.natural] or LEISURE[tags.leisure] or tags.waterway == 'riverbank' then
        tables.landuse:insert({ landuse = tags.landuse, cover = tags.natural, waterway = tags.waterway, leisure = tags.leisure,
            name = tags.name, geom = area() })
    end
    if tags.boundary == 'administrative' and tags.admin_level then
        tables.borders:insert({ admin_level = int(tags.admin_level), name = tags.name, code = tags['ISO3166-1'], geom = area() })
    end
end

function osm2pgsql.process_way(object)
    local tags = object.tags
    if ROADS[tags.highway] and tags.area ~= 'yes' then
        tables.roads:insert({ highway = tags.highway, name = tags.name, ref = tags.ref, oneway = tags.oneway, lanes = int(tags.lanes),
            maxspeed = tags.maxspeed, layer = int(tags.layer), bridge = tags.bridge, tunnel = tags.tunnel,
            buses = refs('bus', object.id), cycles = refs('bicycle', object.id), geom = object:as_linestring() })
    end
    if PATHS[tags.highway] and tags.area ~= 'yes' then
        tables.paths:insert({ highway = tags.highway, name = tags.name, surface = tags.surface, foot = tags.foot, bicycle = tags.bicycle,
            tracktype = tags.tracktype, layer = int(tags.layer), geom = object:as_linestring() })
    end
    if RAILS[tags.railway] then
        tables.rails:insert({ railway = tags.railway, name = tags.name, service = tags.service, usage = tags.usage, gauge = int(tags.gauge),
            layer = int(tags.layer), bridge = tags.bridge, tunnel = tags.tunnel, geom = object:as_linestring() })
    end
    if object.is_closed then
        areas(tags, function() return object:as_polygon() end)
    end
end

local function is_selecting(tags)
    return tags.type == 'route' and refs_of[tags.route] ~= nil
end

function osm2pgsql.select_relation_members(relation)
    if is_selecting(relation.tags) then
        return { ways = osm2pgsql.way_member_ids(relation) }
    end
end

function osm2pgsql.process_relation(object)
    local tags = object.tags
    if tags.type == 'multipolygon' or tags.type == 'boundary' then
        areas(tags, function() return object:as_multipolygon() end)
    end
    if tags.type == 'route' and tags.route == 'bus' then
        tables.bus_routes:insert({ ref = tags.ref, name = tags.name, origin = tags.from, destination = tags.to, operator = tags.operator,
            network = tags.network, geom = object:as_multilinestring():line_merge() })
    end
    if tags.type == 'route' and ROUTES[tags.route] then
        tables.routes:insert({ route = tags.route, ref = tags.ref, name = tags.name, network = tags.network, osmc_symbol = tags['osmc:symbol'],
            geom = object:as_multilinestring():line_merge() })
    end
    if is_selecting(tags) and tags.ref then
        local of = refs_of[tags.route]
        for _, member in ipairs(object.members) do
            if member.type == 'w' then
                of[member.ref] = of[member.ref] or {}
                of[member.ref][object.id] = tags.ref
            end
        end
    end
end
