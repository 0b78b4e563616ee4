-- The town style, for osm2pgsql's flex output: cafes; roads with the refs of the bus routes that they are part of; areas.
-- Geometries are in degrees, or in the projection that the environment variable SRID names: osm2pgsql writes a list of
-- expired tiles for 3857 alone.

local projection = tonumber(os.getenv('SRID') or '4326')

local function define(name, source, geometry, columns)
    table.insert(columns, { column = 'geom', type = geometry, projection = projection, not_null = true })
    return osm2pgsql.define_table({ name = name, ids = { type = source, id_column = 'osm_id' }, columns = columns })
end

local cafes = define('cafes', 'node', 'point', { { column = 'name', type = 'text' } })
local roads = define('roads', 'way', 'linestring', { { column = 'lanes', type = 'int8' }, { column = 'buses', type = 'text' } })
local areas = define('areas', 'area', 'multipolygon', { { column = 'tags', type = 'jsonb' } })

-- The refs of the bus routes that name a way, by way and route: a second run over a way sees each route once.
local refs_of = {}

local function is_bus(tags)
    return tags.type == 'route' and tags.route == 'bus'
end

local function is_area(tags)
    return tags.landuse ~= nil or tags.type == 'multipolygon'
end

-- A column of whole numbers takes a sign and up to 18 digits, and is empty where the text is another.
local function whole(text)
    local digits = text and text:match('^%-?(%d+)$')
    return digits and #digits <= 18 and text or nil
end

local function buses(way)
    local list, seen = {}, {}
    for _, ref in pairs(refs_of[way] or {}) do
        if not seen[ref] then
            seen[ref] = true
            table.insert(list, ref)
        end
    end
    table.sort(list)
    return #list > 0 and table.concat(list, ',') or nil
end

function osm2pgsql.process_node(object)
    if object.tags.amenity == 'cafe' then
        cafes:insert({ name = object.tags.name, geom = object:as_point() })
    end
end

function osm2pgsql.process_way(object)
    local tags = object.tags
    if tags.highway then
        roads:insert({ lanes = whole(tags.lanes), buses = buses(object.id), geom = object:as_linestring() })
    end
    if object.is_closed and is_area(tags) then
        areas:insert({ tags = tags, geom = object:as_polygon() })
    end
end

-- The ways of a bus route are looked at again when it changes.
function osm2pgsql.select_relation_members(relation)
    if is_bus(relation.tags) then
        return { ways = osm2pgsql.way_member_ids(relation) }
    end
end

function osm2pgsql.process_relation(object)
    local tags = object.tags
    if (tags.type == 'multipolygon' or tags.type == 'boundary') and is_area(tags) then
        areas:insert({ tags = tags, geom = object:as_multipolygon() })
    end
    if is_bus(tags) and tags.ref then
        for _, member in ipairs(object.members) do
            if member.type == 'w' then
                refs_of[member.ref] = refs_of[member.ref] or {}
                refs_of[member.ref][object.id] = tags.ref
            end
        end
    end
end
