// Calls of LightCouch, a client of CouchDB for Java, each with OK or FAIL and what it gave: PORT PASSWORD. Used by clients_check.
import org.lightcouch.*;
import java.util.*;
import java.io.*;
import com.google.gson.*;
public class LightCouchTour {
  static class D { String _id; String _rev; String name; Integer v; D(){} D(String i,String n,Integer v){_id=i;name=n;this.v=v;} public String toString(){return _id+" "+_rev+" "+name+" "+v;} }
  interface F { Object go() throws Exception; }
  static Object t(String name, F f) throws Exception {
    try { Object o=f.go(); System.out.println("OK   "+name+" -> "+o); return o; }
    catch(Throwable e){ System.out.println("FAIL "+name+" -> "+e.getClass().getSimpleName()+": "+String.valueOf(e.getMessage()).replace("\n"," ")); return null; }
  }
  static String s(InputStream i) throws Exception { return new String(i.readAllBytes()); }
  public static void main(String[] a) throws Exception {
    final CouchDbClient[] c=new CouchDbClient[1];
    t("new client, createDbIfNotExist=true", ()->{c[0]=new CouchDbClient("light",true,"http","127.0.0.1",Integer.parseInt(a[0]),"root",a[1]); return c[0].getDBUri();});
    if(c[0]==null) t("new client, createDb=false", ()->{c[0]=new CouchDbClient("light",false,"http","127.0.0.1",Integer.parseInt(a[0]),"root",a[1]); return c[0].getDBUri();});
    CouchDbClient d=c[0];
    t("context.serverVersion", ()->d.context().serverVersion());
    t("context.getAllDbs", ()->d.context().getAllDbs());
    t("context.info", ()->d.context().info());
    t("context.info.getDiskSize", ()->d.context().info().getDiskSize());
    t("context.uuids", ()->d.context().uuids(3));
    t("context.compact", ()->{d.context().compact();return "";});
    t("context.ensureFullCommit", ()->{d.context().ensureFullCommit();return "";});
    t("save with id", ()->{Response r=d.save(new D("a","x",1));return r.getRev();});
    t("save without id", ()->{Response r=d.save(new D(null,"x",2));return r.getId();});
    t("save again (conflict)", ()->d.save(new D("a","x",1)));
    t("save id with slash", ()->d.save(new D("p/q","x",1)).getId());
    t("save Map with double", ()->{Map m=new HashMap();m.put("_id","dbl");m.put("price",1.5);return d.save(m);});
    t("save Map via JsonObject with whole as double 1.0", ()->{Map m=new HashMap();m.put("_id","dbl1");m.put("price",1.0);return d.save(m);});
    t("post (POST /db)", ()->d.post(new D(null,"p",3)).getId());
    t("batch (POST /db?batch=ok)", ()->{d.batch(new D(null,"p",4));return "";});
    t("find id", ()->d.find(D.class,"a"));
    t("find id rev", ()->{D x=d.find(D.class,"a");return d.find(D.class,"a",x._rev);});
    t("find Params revs", ()->s(d.find("a")));
    t("find with attachments param", ()->d.find(D.class,"a",new Params().attachments()));
    t("find with revsInfo", ()->d.find(D.class,"a",new Params().revsInfo()));
    t("find with conflicts (addParam)", ()->d.find(D.class,"a",new Params().addParam("conflicts","true")));
    t("find missing", ()->d.find(D.class,"nope"));
    t("contains a (HEAD)", ()->d.contains("a"));
    t("contains nope (HEAD)", ()->d.contains("nope"));
    t("update", ()->{D x=d.find(D.class,"a");x.v=9;return d.update(x).getRev();});
    t("read-modify-write Map<String,Object> (Gson numbers become doubles)", ()->{Map m=d.find(Map.class,"a");System.out.println("     read "+m);m.put("name","y");return d.update(m);});
    t("read-modify-write JsonObject", ()->{JsonObject m=d.find(JsonObject.class,"a");m.addProperty("name","z");return d.update(m).getRev();});
    t("findDocs (_find)", ()->d.findDocs("{\"selector\":{\"v\":{\"$gt\":0}},\"limit\":10}",D.class));
    t("findDocs with fields", ()->d.findDocs("{\"selector\":{\"v\":{\"$gt\":0}},\"fields\":[\"_id\"]}",D.class));
    t("bulk new docs with ids", ()->{List<Response> l=d.bulk(Arrays.asList(new D("b1","n",1),new D("b2","n",2)),true);List r=new ArrayList();for(Response x:l)r.add(x.getId()+" "+x.getRev());return r;});
    t("bulk newEdits=true without ids", ()->{List<Response> l=d.bulk(Arrays.asList(new D(null,"n",1)),true);List r=new ArrayList();for(Response x:l)r.add(x.getId()+" "+x.getRev()+" "+x.getError());return r;});
    t("bulk newEdits=false", ()->{D x=new D("nf","n",1);x._rev="1-abc";return d.bulk(Arrays.asList(x),false);});
    t("view _all_docs includeDocs", ()->d.view("_all_docs").includeDocs(true).query(D.class));
    t("view _all_docs plain (queryForStream)", ()->s(d.view("_all_docs").queryForStream()));
    t("view _all_docs startKey endKey limit", ()->s(d.view("_all_docs").startKey("a").endKey("b").limit(2).queryForStream()));
    t("view _all_docs key", ()->s(d.view("_all_docs").key("a").queryForStream()));
    t("view _all_docs keys (POST)", ()->s(d.view("_all_docs").keys(Arrays.asList("a","b1")).queryForStream()));
    t("view _all_docs reduce=false", ()->s(d.view("_all_docs").reduce(false).queryForStream()));
    t("view _all_docs descending skip", ()->s(d.view("_all_docs").descending(true).skip(1).limit(1).queryForStream()));
    t("view queryPage", ()->d.view("_all_docs").queryPage(2,null,D.class));
    t("design doc put (JS views)", ()->{DesignDocument dd=new DesignDocument();dd.setId("_design/js");dd.setLanguage("javascript");DesignDocument.MapReduce m=new DesignDocument.MapReduce();m.setMap("function(d){emit(d.v,null)}");Map<String,DesignDocument.MapReduce> v=new HashMap<>();v.put("by",m);dd.setViews(v);return d.save(dd);});
    t("design().getFromDb", ()->d.design().getFromDb("_design/js").getId());
    t("design().synchronizeWithDb", ()->{DesignDocument dd=new DesignDocument();dd.setId("_design/s2");dd.setLanguage("javascript");return d.design().synchronizeWithDb(dd);});
    t("view js/by", ()->s(d.view("js/by").queryForStream()));
    t("put own index design doc via Map", ()->{Map m=new HashMap();m.put("_id","_design/ix");m.put("indexes",Map.of("p",Map.of("fields",List.of("v"))));return d.save(m);});
    t("view ix/p plain", ()->s(d.view("ix/p").queryForStream()));
    t("view ix/p startKey(1) (LightCouch sends scalar)", ()->s(d.view("ix/p").startKey(1).queryForStream()));
    t("view ix/p startKey(1,2) complex", ()->s(d.view("ix/p").startKey(1,2).queryForStream()));
    t("view ix/p query(Class) ", ()->d.view("ix/p").query(D.class));
    t("view ix/p includeDocs query(Class) ", ()->d.view("ix/p").includeDocs(true).query(D.class));
    t("changes().getChanges", ()->{ChangesResult r=d.changes().getChanges();return r.getLastSeq()+" "+r.getResults().size();});
    t("changes limit since", ()->{ChangesResult r=d.changes().since("2").limit(2).getChanges();return r.getLastSeq()+" "+r.getResults().size();});
    t("changes includeDocs", ()->d.changes().includeDocs(true).getChanges().getLastSeq());
    t("changes since now", ()->d.changes().since("now").getChanges().getLastSeq());
    t("changes timeout", ()->d.changes().timeout(1000).getChanges().getLastSeq());
    t("continuousChanges", ()->{Changes ch=d.changes().includeDocs(false).since("0").heartBeat(1000).continuousChanges();int n=0;while(ch.hasNext()&&n<2){ch.next();n++;}ch.stop();return n;});
    t("saveAttachment (new doc)", ()->d.saveAttachment(new ByteArrayInputStream("hi".getBytes()),"a.txt","text/plain"));
    t("saveAttachment to doc", ()->d.saveAttachment(new ByteArrayInputStream("hi".getBytes()),"a.txt","text/plain","b1",d.find(D.class,"b1")._rev));
    t("doc with inline _attachments", ()->{Document x=new Document();x.setId("att");Attachment at=new Attachment();at.setContentType("text/plain");at.setData("aGk=");x.addAttachment("f.txt",at);return d.save(x);});
    t("remove object", ()->{D x=d.find(D.class,"b1");return d.remove(x).getRev();});
    t("remove id rev", ()->{D x=d.find(D.class,"b2");return d.remove("b2",x._rev).getRev();});
    t("replication.trigger", ()->d.replication().source("light").target("light2").createTarget(true).trigger().isOk());
    t("replicator.save", ()->d.replicator().replicatorDB("_replicator").replicatorDocId("r1").source("light").target("light2").save().getId());
    t("invokeUpdateHandler", ()->d.invokeUpdateHandler("js/u","a",new Params()));
    t("context.createDB", ()->{d.context().createDB("light3");return "";});
    t("context.deleteDB", ()->{d.context().deleteDB("light3","delete database");return "";});
    d.shutdown();
  }
}
